"""A hub that a household can run: routines over MQTT devices, by the proved core of `lazbendix`.

What is proved is the core alone: the order of runs, all or nothing, a cause for each abort. This
package is what stands around it: the file of the home, the drivers of devices, triggers, pages.
"""

__version__ = "0.1.0"
