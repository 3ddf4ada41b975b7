/* mezulobu-devices: asks devices what buffers they take, and prints a script that shares them. */
#include "script.h"
#include <errno.h>
#include <fcntl.h>
#include <inttypes.h>
#include <stdlib.h>
#include <string.h>
#include <unistd.h>

#define USAGE "usage: mezulobu-devices [--json-participant] DEVICE.. WIDTHxHEIGHT\n"
#define HELP                                                                                     \
    USAGE "\n"                                                                                   \
    "Asks V4L2 and DRM devices which buffers of images of this size they take, and prints a\n"   \
    "script in which they share them, for run, explain and threads. With --json-participant it\n"\
    "prints an object for each device, with its name and its constraints alone.\n\n"             \
    "DEVICE is /dev/videoN, with :capture or :output behind it where it has two queues, or\n"    \
    "/dev/dri/cardN, with :ID behind it for the plane of this id. What has no name in a script\n"\
    "is left out, and listed on standard error.\n"

/* The statuses of the command, besides 0. */
#define FAILED 1
#define MISUSED 2

/* As many actors as a script has, but for the app. */
#define MOST_DEVICES 15

/* What stands behind a device's path. */
struct choice {
    enum mezulobu_queue queue;
    uint32_t plane;
    bool is_plane;
};

static bool read_number(const char *text, char end, uint32_t *number, const char **rest)
{
    char *stop;
    errno = 0;
    unsigned long read = strtoul(text, &stop, 10);
    *number = (uint32_t)read;
    *rest = stop;
    return *text >= '0' && *text <= '9' && !errno && read && read <= UINT32_MAX && *stop == end;
}

static bool read_size(const char *text, struct mezulobu_size *size)
{
    const char *rest;
    return read_number(text, 'x', &size->width, &rest)
        && read_number(rest + 1, 0, &size->height, &rest);
}

/* The path of a device, without the choice behind it; null where memory is refused. */
static char *read_device(const char *text, struct choice *choice)
{
    const char *colon = strrchr(text, ':'), *rest;
    char *path = strdup(text);
    *choice = (struct choice){MEZULOBU_QUEUE_ONLY, 0, false};
    if (!colon || !path)
        return path;
    if (!strcmp(colon, ":capture"))
        choice->queue = MEZULOBU_QUEUE_CAPTURE;
    else if (!strcmp(colon, ":output"))
        choice->queue = MEZULOBU_QUEUE_OUTPUT;
    else if (!(choice->is_plane = read_number(colon + 1, 0, &choice->plane, &rest)))
        return path;
    path[colon - text] = 0;
    return path;
}

static int ask_either(int fd, const struct choice *choice, struct mezulobu_size size,
                      struct mezulobu_device *device)
{
    struct mezulobu_device by_v4l2 = *device;
    if (choice->is_plane)
        return mezulobu_drm_participant(fd, choice->plane, size, device);
    int status = mezulobu_v4l2_participant(fd, choice->queue, size, &by_v4l2);
    if (by_v4l2.trouble == MEZULOBU_TROUBLE_OTHER_KIND && !choice->queue)
        return mezulobu_drm_participant(fd, 0, size, device);
    *device = by_v4l2;
    return status;
}

static void free_device(struct mezulobu_device *device)
{
    free(device->entries);
    free(device->omitted);
    *device = (struct mezulobu_device){.struct_size = sizeof *device};
}

/* Asks with room for so many entries, and so many formats that are left out. */
static int ask_with_room(int fd, const struct choice *choice, struct mezulobu_size size,
                         size_t n_entries, size_t n_omitted, struct mezulobu_device *device)
{
    *device = (struct mezulobu_device){
        .struct_size = sizeof *device, .n_entries = n_entries, .n_omitted = n_omitted};
    device->entries = calloc(n_entries + 1, sizeof *device->entries);
    device->omitted = calloc(n_omitted + 1, sizeof *device->omitted);
    if (!device->entries || !device->omitted)
        return MEZULOBU_NO_MEMORY;
    return ask_either(fd, choice, size, device);
}

/* Asks with the room that most devices need, and again where one needs more. */
static int ask_device(int fd, const struct choice *choice, struct mezulobu_size size,
                      struct mezulobu_device *device)
{
    int status = ask_with_room(fd, choice, size, 64, 256, device);
    if (status != MEZULOBU_TOO_SMALL)
        return status;
    size_t n_entries = device->n_entries, n_omitted = device->n_omitted;
    free_device(device);
    return ask_with_room(fd, choice, size, n_entries, n_omitted, device);
}

/* The letters of a code, as V4L2 writes them: its highest bit is big-endian, and has letters of its
 * own. Other bytes are `?`. */
static void put_letters(uint32_t code, char letters[8])
{
    for (int i = 0; i < 4; i++) {
        uint32_t letter = code >> 8 * i & 0x7f;
        letters[i] = (char)(letter >= ' ' && letter <= '~' ? letter : '?');
    }
    snprintf(letters + 4, 4, "%s", code >> 31 ? "-BE" : "");
}

static void tell_omitted(const char *name, const struct mezulobu_omitted *omitted)
{
    char letters[8];
    put_letters(omitted->format, letters);
    fprintf(stderr, "%s: left out: ", name);
    if (omitted->why == MEZULOBU_OMITTED_MODIFIER)
        fprintf(stderr, "modifier 0x%016" PRIx64 " (%s)", omitted->modifier, omitted->name);
    else
        fprintf(stderr, "%s (%s)", letters, omitted->name);
    if (omitted->why == MEZULOBU_OMITTED_PAIR)
        fprintf(stderr, " with modifier 0x%016" PRIx64, omitted->modifier);
    fprintf(stderr, ": %s", mezulobu_omission_text(omitted->why));
    if (omitted->why == MEZULOBU_OMITTED_SIZE)
        fprintf(stderr, "; it offers %" PRIu32 "x%" PRIu32, omitted->nearest.width,
                omitted->nearest.height);
    fputs("\n", stderr);
}

static void tell_trouble(const char *path, int status, const struct mezulobu_device *device)
{
    const char *text = status == MEZULOBU_NO_MEMORY ? "no memory"
                     : device->trouble == MEZULOBU_TROUBLE_ERROR ? strerror(device->error)
                                                  : mezulobu_trouble_text(device->trouble);
    fprintf(stderr, "mezulobu-devices: %s: %s\n", path, text);
}

static int open_device(const char *path)
{
    int fd = open(path, O_RDWR | O_CLOEXEC);
    if (fd < 0)
        fprintf(stderr, "mezulobu-devices: %s: %s\n", path, strerror(errno));
    return fd;
}

/* Whether a name is taken: by a device before, by the app or by the collection's root. */
static bool is_taken(const struct named *devices, size_t n, const char *name)
{
    for (size_t i = 0; i < n; i++)
        if (!strcmp(devices[i].name, name))
            return true;
    return !strcmp(name, "root") || !strcmp(name, "app");
}

/* The driver's name, with a number where it is taken. */
static void name_device(struct named *devices, size_t n)
{
    struct named *named = &devices[n];
    memcpy(named->name, named->device.driver, sizeof named->name);
    named->name[sizeof named->name - 1] = 0;
    for (unsigned number = 2; is_taken(devices, n, named->name); number++)
        snprintf(named->name, sizeof named->name, "%.28s-%u", named->device.driver, number);
}

/* Asks the n-th device: 0, or FAILED and a line that says why it can't take part. */
static int fill(const char *text, struct mezulobu_size size, struct named *devices, size_t n)
{
    struct choice choice;
    struct mezulobu_device *device = &devices[n].device;
    char *path = read_device(text, &choice);
    int fd = path ? open_device(path) : -1;
    free(path);
    if (fd < 0)
        return FAILED;
    int status = ask_device(fd, &choice, size, device);
    close(fd);
    name_device(devices, n);
    for (size_t i = 0; device->omitted && i < device->n_omitted; i++)
        tell_omitted(devices[n].name, &device->omitted[i]);
    if (status == MEZULOBU_DONE)
        return 0;
    tell_trouble(text, status, device);
    return FAILED;
}

static void print_participants(const struct named *devices, size_t n)
{
    for (size_t i = 0; i < n; i++) {
        printf("{\"as\":\"%s\",\"constraints\":", devices[i].name);
        print_constraints(stdout, &devices[i].device.participant, false);
        printf("}\n");
    }
}

static int refuse(const char *text, const char *about)
{
    fprintf(stderr, "mezulobu-devices: %s%s\n" USAGE, text, about);
    return MISUSED;
}

/* Nothing is printed before each device has answered. */
static int run(char **paths, size_t n, struct mezulobu_size size, bool is_json)
{
    struct named *devices = calloc(n, sizeof *devices);
    size_t asked = 0;
    int status = devices ? 0 : FAILED;
    while (!status && asked < n) {
        status = fill(paths[asked], size, devices, asked);
        asked++;
    }
    if (!status && is_json)
        print_participants(devices, n);
    else if (!status)
        status = print_script(stdout, devices, n) ? FAILED : 0;
    while (asked)
        free_device(&devices[--asked].device);
    free(devices);
    if (!status && (fflush(stdout) || ferror(stdout))) {
        fprintf(stderr, "mezulobu-devices: write fault\n");
        return FAILED;
    }
    return status;
}

int main(int argc, char **argv)
{
    struct mezulobu_size size;
    bool is_json = argc > 1 && !strcmp(argv[1], "--json-participant");
    int first = is_json ? 2 : 1, n = argc - first - 1;
    if (argc == 2 && (!strcmp(argv[1], "-h") || !strcmp(argv[1], "--help"))) {
        fputs(HELP, stdout);
        return 0;
    }
    if (n < 1)
        return refuse("a device and a size are needed", "");
    if (argv[first][0] == '-')
        return refuse("there is no option ", argv[first]);
    if (!read_size(argv[argc - 1], &size))
        return refuse("this is no size, as 1280x720 is: ", argv[argc - 1]);
    if (n > MOST_DEVICES)
        return refuse("a script has at most 15 devices", "");
    return run(argv + first, (size_t)n, size, is_json);
}
