// alternatives: a camera that makes NV12 or YUY2, and likes NV12 better. Each of the two is a child
// of a group on the camera's token, and one of them is chosen. First the encoder takes YUY2 alone,
// then any format. All of it is on one thread: the last call makes the decision.
//
// cc alternatives.c $(pkg-config --cflags --libs mezulobu) -o alternatives && ./alternatives
#include <mezulobu.h>
#include <stdio.h>
#include <stdlib.h>

#define NV12 0x3231564eu /* DRM_FORMAT_NV12 */
#define YUY2 0x56595559u /* DRM_FORMAT_YUYV */

static void must(int status, const char *call)
{
    if (status == MEZULOBU_DONE)
        return;
    fprintf(stderr, "alternatives: %s: %s\n", call, mezulobu_status_text(status, call));
    exit(1);
}

// The token takes part under this name, and asks for images of one format, or of any, for 0.
static struct mezulobu_collection *taking_part(struct mezulobu_token *token, const char *name,
                                               uint32_t camping, uint32_t format)
{
    struct mezulobu_entry images = {.struct_size = sizeof images, .format = format,
        .any_format = !format, .colors = MEZULOBU_REC709, .min_size = {1280, 720}};
    struct mezulobu_participant asked = {.struct_size = sizeof asked, .camping = camping,
        .usage = MEZULOBU_USE_VIDEO, .entries = &images, .n_entries = 1};
    struct mezulobu_collection *made = NULL;
    must(mezulobu_token_set_name(token, name), "set_name");
    must(mezulobu_token_bind(&token, &made), "bind");
    must(mezulobu_collection_set_constraints(made, &asked, NULL), "set_constraints");
    return made;
}

// The camera's alternatives, a child for each, the one that it likes best first.
static void offer(struct mezulobu_token *camera, struct mezulobu_collection *made[2])
{
    struct mezulobu_group *either = NULL;
    struct mezulobu_token *nv12 = NULL, *yuy2 = NULL;
    must(mezulobu_token_create_group(camera, &either), "create_group");
    must(mezulobu_group_create_child(either, &nv12), "create_child");
    must(mezulobu_group_create_child(either, &yuy2), "create_child");
    must(mezulobu_group_all_children_present(either), "all_children_present");
    must(mezulobu_group_release(&either), "release");
    made[0] = taking_part(nv12, "nv12", 3, NV12);
    made[1] = taking_part(yuy2, "yuy2", 3, YUY2);
    // The camera's own token is awaited too, until it is given up.
    must(mezulobu_token_release(&camera), "release");
}

static void tell(struct mezulobu_collection *of, const char *name)
{
    struct mezulobu_settings s = {.struct_size = sizeof s};
    int status = mezulobu_collection_check(of, &s);
    if (status == MEZULOBU_DONE)
        printf("%s: %u buffers of %llu bytes\n", name, s.count, (unsigned long long)s.bytes);
    else
        printf("%s: %s\n", name, mezulobu_status_name(status));
}

static void share(struct mezulobu_allocator *on, uint32_t encoded)
{
    struct mezulobu_token *root = NULL, *camera = NULL, *other = NULL;
    struct mezulobu_collection *either[2] = {NULL, NULL};
    uint8_t choice = 0;
    size_t n = 1;
    must(mezulobu_allocate_shared(on, &root), "allocate_shared");
    must(mezulobu_token_duplicate(root, &camera), "duplicate");
    offer(camera, either);
    must(mezulobu_token_duplicate(root, &other), "duplicate");
    must(mezulobu_token_release(&root), "release");
    struct mezulobu_collection *encoder = taking_part(other, "encoder", 2, encoded);
    tell(either[0], "nv12");
    tell(either[1], "yuy2");
    tell(encoder, "encoder");
    must(mezulobu_collection_selection(encoder, &choice, &n), "selection");
    printf("alternative %u was chosen\n", choice);
    for (int i = 0; i < 2; i++)
        must(mezulobu_collection_release(&either[i]), "release");
    must(mezulobu_collection_release(&encoder), "release");
}

int main(void)
{
    struct mezulobu_heap heap = {.cpu = true};
    struct mezulobu_pair pairs[] = {{.format = NV12}, {.format = YUY2}};
    uint32_t color = MEZULOBU_REC709;
    struct mezulobu_platform platform = {sizeof platform, &heap, 1, pairs, 2, &color, 1};
    struct mezulobu_allocator *on = NULL;
    must(mezulobu_allocator_new(&platform, &on, NULL), "allocator_new");
    share(on, YUY2);
    share(on, 0);
    mezulobu_allocator_free(on);
    return 0;
}
