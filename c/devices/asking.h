/* What asking any device needs: an ioctl that goes on after a signal, and an answer's lists. */
#ifndef MEZULOBU_DEVICE_ASKING_H
#define MEZULOBU_DEVICE_ASKING_H

#include "mezulobu_devices.h"

/* Buffers that a program holds are two at least: the one in use, and the next. */
#define LEAST_CAMPING 2

/* 0, or -1 and errno. */
int ask(int fd, unsigned long request, void *argument);

/* The lists of a device while they grow; what is beyond their room is counted alone. */
struct answer {
    struct mezulobu_device *device;
    size_t n_entries, n_omitted;
};

/* Whether a device can be filled in. */
bool is_usable(const struct mezulobu_device *device);

void begin(struct answer *answer, struct mezulobu_device *device);
void add_entry(struct answer *answer, const struct mezulobu_entry *entry);
void add_omitted(struct answer *answer, const struct mezulobu_omitted *omitted);

/* Ends the lists, and makes a participant of what was told: DONE, TOO_SMALL, or NO where there is
 * no entry. */
int finish(struct answer *answer, const struct mezulobu_participant *told);

/* Says what the trouble is, with errno; the status that goes with it. */
int in_trouble(struct mezulobu_device *device, uint32_t trouble);

/* The driver's name, in letters of scripts. */
void put_driver(struct mezulobu_device *device, const char *name);

/* Text of at most so many bytes, which is cut where it is longer than its room. */
void put_text(char *to, size_t room, const char *text, size_t most);

#endif
