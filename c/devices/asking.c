#include "asking.h"
#include <errno.h>
#include <string.h>
#include <sys/ioctl.h>

int ask(int fd, unsigned long request, void *argument)
{
    int status;
    do
        status = ioctl(fd, request, argument);
    while (status < 0 && errno == EINTR);
    return status < 0 ? -1 : 0;
}

bool is_usable(const struct mezulobu_device *device)
{
    return device && device->struct_size == sizeof *device
        && (device->entries || !device->n_entries) && (device->omitted || !device->n_omitted);
}

void begin(struct answer *answer, struct mezulobu_device *device)
{
    *answer = (struct answer){.device = device};
    device->trouble = MEZULOBU_TROUBLE_NONE;
    device->error = 0;
    device->driver[0] = 0;
}

void add_entry(struct answer *answer, const struct mezulobu_entry *entry)
{
    if (answer->n_entries < answer->device->n_entries)
        answer->device->entries[answer->n_entries] = *entry;
    answer->n_entries++;
}

void add_omitted(struct answer *answer, const struct mezulobu_omitted *omitted)
{
    if (answer->n_omitted < answer->device->n_omitted)
        answer->device->omitted[answer->n_omitted] = *omitted;
    answer->n_omitted++;
}

int finish(struct answer *answer, const struct mezulobu_participant *told)
{
    struct mezulobu_device *device = answer->device;
    bool is_short = answer->n_entries > device->n_entries || answer->n_omitted > device->n_omitted;
    device->n_entries = answer->n_entries;
    device->n_omitted = answer->n_omitted;
    if (is_short)
        return MEZULOBU_TOO_SMALL;
    if (!answer->n_entries)
        return in_trouble(device, MEZULOBU_TROUBLE_NO_ENTRY);
    device->participant = *told;
    device->participant.struct_size = sizeof device->participant;
    device->participant.entries = device->entries;
    device->participant.n_entries = device->n_entries;
    return MEZULOBU_DONE;
}

int in_trouble(struct mezulobu_device *device, uint32_t trouble)
{
    bool is_fault = trouble == MEZULOBU_TROUBLE_ERROR || trouble == MEZULOBU_TROUBLE_OTHER_KIND;
    device->error = trouble == MEZULOBU_TROUBLE_ERROR ? errno : 0;
    device->trouble = trouble;
    if (trouble != MEZULOBU_TROUBLE_NO_ENTRY)
        device->n_entries = device->n_omitted = 0;
    return is_fault ? MEZULOBU_DEVICE_FAULT : MEZULOBU_NO;
}

void put_text(char *to, size_t room, const char *text, size_t most)
{
    size_t length = strnlen(text, most < room - 1 ? most : room - 1);
    memcpy(to, text, length);
    to[length] = 0;
}

static bool is_of_name(char letter)
{
    return (letter >= 'a' && letter <= 'z') || (letter >= 'A' && letter <= 'Z')
        || (letter >= '0' && letter <= '9') || letter == '_' || letter == '-';
}

void put_driver(struct mezulobu_device *device, const char *name)
{
    put_text(device->driver, sizeof device->driver, name, sizeof device->driver);
    for (char *letter = device->driver; *letter; letter++)
        if (!is_of_name(*letter))
            *letter = '_';
    if (!device->driver[0])
        put_text(device->driver, sizeof device->driver, "device", sizeof device->driver);
}

const char *mezulobu_trouble_text(uint32_t trouble)
{
    switch (trouble) {
    case MEZULOBU_TROUBLE_NONE: return "no trouble";
    case MEZULOBU_TROUBLE_OTHER_KIND: return "neither a V4L2 nor a DRM device";
    case MEZULOBU_TROUBLE_ERROR: return "the device can't be asked";
    case MEZULOBU_TROUBLE_NO_QUEUE: return "it has no such queue of images";
    case MEZULOBU_TROUBLE_TWO_QUEUES: return "it has a queue for capture and one for output";
    case MEZULOBU_TROUBLE_NO_DMABUF: return "it takes no buffers of other devices (dma-buf)";
    case MEZULOBU_TROUBLE_NO_PLANE: return "it has no such plane, or no screen is connected";
    case MEZULOBU_TROUBLE_NO_ENTRY: return "none of its formats is left";
    default: return "?";
    }
}

const char *mezulobu_omission_text(uint32_t why)
{
    switch (why) {
    case MEZULOBU_OMITTED_FORMAT: return "there is no name for this format";
    case MEZULOBU_OMITTED_MODIFIER: return "there is no name for this modifier";
    case MEZULOBU_OMITTED_PAIR: return "these tiles go with formats of 4 bytes alone";
    case MEZULOBU_OMITTED_COMPRESSED: return "it is compressed";
    case MEZULOBU_OMITTED_PLANES: return "its planes lie in buffers of their own";
    case MEZULOBU_OMITTED_FIELDS: return "it comes in fields, and not as whole images";
    case MEZULOBU_OMITTED_COLORS: return "there is no name for its colours";
    case MEZULOBU_OMITTED_SIZE: return "the driver hasn't it in this size";
    case MEZULOBU_OMITTED_MODIFIERS: return "there is no name for any of its modifiers";
    case MEZULOBU_OMITTED_UNLISTED: return "the driver lists no modifier for it";
    default: return "?";
    }
}
