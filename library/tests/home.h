/* A script for tests: three devices, three routines, two windows, the first with a round of probes. */
#ifndef HOME_H
#define HOME_H

#define DEVICES 3
#define ROUTINES 3
#define WINDOWS 2

/* The script up to its windows. */
#define HOME_DAY \
    "{\"safehome\": 1," \
    " \"devices\": [" \
    "  {\"name\": \"lamp\", \"states\": [\"off\", \"on\"], \"start\": \"off\"}," \
    "  {\"name\": \"heat\", \"low\": 10, \"high\": 30, \"start\": 16}," \
    "  {\"name\": \"door\", \"states\": [\"shut\", \"open\"], \"start\": \"shut\"}]," \
    " \"routines\": [" \
    "  {\"name\": \"come\", \"commands\": [{\"on\": \"lamp\", \"do\": \"set\", \"to\": \"on\"}," \
    "    {\"on\": \"heat\", \"do\": \"set\", \"to\": 21}, {\"on\": \"door\", \"do\": \"check\", \"to\": \"shut\"}]}," \
    "  {\"name\": \"leave\", \"commands\": [{\"on\": \"lamp\", \"do\": \"set\", \"to\": \"off\"}," \
    "    {\"on\": \"heat\", \"do\": \"set\", \"to\": 15}]}," \
    "  {\"name\": \"warmer\", \"commands\": [{\"on\": \"heat\", \"do\": \"load\"}, {\"on\": \"heat\", \"do\": \"store\"}]}]," \
    " \"windows\": ["

static const char HOME[] = HOME_DAY
    "  {\"at\": \"2021-04-26T07:00:00\", \"probes\": 1,"
    "   \"runs\": [{\"routine\": \"come\"}, {\"routine\": \"leave\"}, {\"routine\": \"warmer\", \"follows\": 1}]},"
    "  {\"at\": \"2021-04-26T08:00:00\", \"runs\": [{\"routine\": \"leave\"}]}]}";

#endif
