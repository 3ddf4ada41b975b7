/* Devices as a script of a collection that they share. */
#ifndef MEZULOBU_DEVICE_SCRIPT_H
#define MEZULOBU_DEVICE_SCRIPT_H

#include "mezulobu_devices.h"
#include <stdio.h>

/* A device, and the name that it has in a script. */
struct named {
    char name[33];
    struct mezulobu_device device;
};

/* A record of what a device asks for, on one line. */
void print_constraints(FILE *out, const struct mezulobu_participant *participant, bool is_long);

/* A script in which each of them, an actor, states its constraints. -1 where memory is refused. */
int print_script(FILE *out, const struct named *devices, size_t n);

#endif
