/* stepper LEFT RIGHT [SETTINGS]: both paths turn by turn, path 1 first, and after each event where both turrets stand, in work coordinates.
 *
 *     cc -I include examples/stepper.c crates/lathe_c/out/try/liblathe.a -o stepper */
#include "lathe.h"
#include <stdio.h>
#include <stdlib.h>
#include <string.h>

enum { TURNS = 100000 };

struct text { uint8_t *at; size_t length; };
struct turret { int64_t x, z, shift_x, shift_z; };

static const char *const KINDS[] = {"at", "rapid", "feed", "thread", "arc", "dwell", "speed", "limit", "tool", "aux", "block",
                                    "arrived", "met", "ended", "alarm", "read", "shift", "home", "way"};

static void *memory(void *at, size_t size) {
    void *found = realloc(at, size > 0 ? size : 1);
    if (found == NULL) exit(12);
    return found;
}

static struct text of_file(const char *name) {
    struct text it = {NULL, 0};
    FILE *file = fopen(name, "rb");
    if (file == NULL) { fprintf(stderr, "stepper: %s can't be read\n", name); exit(13); }
    for (size_t room = 1 << 16, got = 1; got > 0; room = it.length + (1 << 16)) {
        it.at = (uint8_t *)memory(it.at, room);
        it.length += got = fread(it.at + it.length, 1, room - it.length, file);
    }
    fclose(file);
    return it;
}

/* What an event changes of the turret of its path. */
static void take(struct turret *turret, const struct lathe_event *event) {
    if (event->kind == LATHE_SHIFT) { turret->shift_x = event->x; turret->shift_z = event->z; }
    if (event->kind <= LATHE_ARC) { turret->x = event->x; turret->z = event->z; }
}

int main(int count, char **words) {
    if (count < 3 || count > 4) return 2;
    struct text left = of_file(words[1]), right = of_file(words[2]), cell = {NULL, 0};
    if (count == 4) cell = of_file(words[3]);
    struct lathe_refusal why;
    uint8_t room[512];
    if (lathe_judge(left.at, left.length, right.at, right.length, cell.at, cell.length, &why) == LATHE_REFUSED) {
        size_t length = lathe_meaning(why.number, room, sizeof room);
        fprintf(stderr, "stepper: path %d line %u: %.*s\n", why.path, (unsigned)why.line, (int)length, (const char *)room);
        return 1;
    }
    uint8_t *order = (uint8_t *)memory(NULL, TURNS);
    for (size_t k = 0; k < TURNS; k++) order[k] = (uint8_t)(1 + k % 2);
    struct lathe_event *events = NULL;
    size_t length = 0, held = 0;
    uint8_t status;
    do {
        events = (struct lathe_event *)memory(events, (held = length) * sizeof *events);
        status = lathe_events(left.at, left.length, right.at, right.length, cell.at, cell.length, order, TURNS, events, held, &length);
    } while (length > held);
    struct turret turrets[2];
    memset(turrets, 0, sizeof turrets);
    for (size_t k = 0; k < length; k++) {
        take(&turrets[events[k].path - 1], &events[k]);
        printf("%6u  path %d line %-5u %-8s", (unsigned)events[k].records, events[k].path, (unsigned)events[k].line, KINDS[events[k].kind]);
        for (int path = 0; path < 2; path++)
            printf("  X%.3f Z%.3f", (double)(turrets[path].x - turrets[path].shift_x) / 1000, (double)(turrets[path].z - turrets[path].shift_z) / 1000);
        printf("\n");
    }
    return status;
}
