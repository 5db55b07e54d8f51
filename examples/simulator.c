/* simulator LEFT RIGHT SETTINGS: plays a pair of tapes in its own time, and prints a time line. Its own times decide in which
 * order the paths get their turns, so a shared variable is read when a machine with these times would read it.
 *
 *     scripts/build_library
 *     cc -O2 -I include examples/simulator.c crates/lathe_c/out/liblathe.a -lm -o simulator
 *     ./simulator examples/upper.nc examples/lower.nc examples/cell.txt
 */
#include "lathe.h"
#include <math.h>
#include <stdio.h>
#include <stdlib.h>
#include <string.h>

enum { MOST_TURNS = 100000, MOST_ROUNDS = 20 };
static const double RAPID = 10000.0; /* mm per minute */

struct text { uint8_t *bytes; size_t length; };
struct turn { uint8_t path; double time; size_t first, count; };
struct play { struct lathe_event *events; size_t count; struct turn *turns; size_t turn_count; uint8_t status; double end; };

static const char *const KINDS[] = {"at", "rapid", "feed", "thread", "arc", "dwell", "speed", "limit", "tool", "aux", "block",
                                    "arrived", "met", "ended", "alarm", "read", "shift", "home", "way"};

static void *memory(void *at, size_t size) {
    void *found = realloc(at, size > 0 ? size : 1);
    if (found == NULL) { fputs("no memory\n", stderr); exit(LATHE_NO_MEMORY); }
    return found;
}

static struct text whole(const char *name) {
    struct text it = {NULL, 0};
    size_t room = 0, count;
    FILE *file = fopen(name, "rb");
    if (file == NULL) { printf("no file %s\n", name); exit(13); }
    do {
        if (it.length == room) it.bytes = memory(it.bytes, room = room > 0 ? 2 * room : 65536);
        count = fread(it.bytes + it.length, 1, room - it.length, file);
        it.length += count;
    } while (count > 0);
    fclose(file);
    return it;
}

#define TEXTS(t) (t)[0].bytes, (t)[0].length, (t)[1].bytes, (t)[1].length, (t)[2].bytes, (t)[2].length

/* The line of a refusal; nothing if the texts are accepted. */
static void judge(const struct text *texts) {
    uint8_t line[256];
    size_t length;
    uint8_t status = lathe_verify(TEXTS(texts), line, sizeof line, &length);
    if (status == LATHE_DONE) return;
    fwrite(line, 1, length < sizeof line ? length : sizeof line, stdout);
    exit(status);
}

/* The events of an order of turns. */
static void ask(const struct text *texts, const uint8_t *order, size_t count, struct play *play) {
    size_t room = 0;
    for (;;) {
        play->status = lathe_events(TEXTS(texts), order, count, play->events, room, &play->count);
        if (play->count <= room) return;
        play->events = memory(play->events, (room = play->count) * sizeof *play->events);
    }
}

/* How a path stands in its own time: its clock in seconds, where its turret is, the shift of X, and its spindle. */
struct path { double clock, x, z, shift, speed, limit; int at_surface; };

static double rate_of(const struct path *path, const struct lathe_event *event) {
    double feed = (double)event->value / 1e6, turns = path->speed;
    if (event->kind == LATHE_RAPID) return RAPID;
    if (event->kind != LATHE_THREAD && !event->per_revolution) return feed > 0 ? feed : RAPID;
    if (path->at_surface) turns = path->speed * 1000 / (3.14159265358979 * fmax(fabs(event->x / 1000.0 - path->shift), 1));
    if (path->limit > 0) turns = fmin(turns, path->limit);
    return feed * turns > 0 ? feed * turns : RAPID;
}

/* What a move takes, in seconds. An arc is taken as the shorter one. */
static double time_of(struct path *path, const struct lathe_event *event) {
    double x = event->x / 1000.0, z = event->z / 1000.0, length;
    switch (event->kind) {
        case LATHE_DWELL: return event->amount / 1000.0;
        case LATHE_SPEED: path->speed = (double)event->amount; path->at_surface = event->at_surface; return 0;
        case LATHE_WAY: path->at_surface = event->at_surface; return 0;
        case LATHE_SHIFT: path->shift = x; return 0;
        case LATHE_LIMIT: path->limit = (double)event->amount; return 0;
        case LATHE_RAPID: case LATHE_FEED: case LATHE_THREAD: case LATHE_ARC: break;
        default: return 0;
    }
    length = hypot((x - path->x) / 2, z - path->z);
    if (event->kind == LATHE_ARC) {
        double radius = event->by_centre ? hypot(event->i / 1000.0, event->k / 1000.0) : fabs(event->i / 1000.0);
        if (radius > 0) length = 2 * radius * asin(fmin(1, length / 2 / radius));
    }
    length /= rate_of(path, event) / 60;
    path->x = x;
    path->z = z;
    return length;
}

/* Splits the events into turns, and times them: a record begins with a new number of records, and a read is a turn by itself. */
static void time_turns(struct play *play) {
    struct path paths[2];
    uint32_t records = 0;
    memset(paths, 0, sizeof paths);
    play->turns = memory(play->turns, (play->count + 1) * sizeof *play->turns);
    play->turn_count = 0;
    for (size_t k = 0; k < play->count; k++) {
        const struct lathe_event *event = &play->events[k];
        struct path *own = &paths[event->path - 1], *other = &paths[2 - event->path];
        if (event->kind == LATHE_PLACED) { own->x = event->x / 1000.0; own->z = event->z / 1000.0; continue; }
        if (event->records == 0 && event->kind != LATHE_READ) { time_of(own, event); continue; }
        if (event->kind == LATHE_READ || event->records != records) {
            struct turn turn = {event->path, own->clock, k, 0};
            play->turns[play->turn_count++] = turn;
        }
        if (event->kind != LATHE_READ) records = event->records;
        play->turns[play->turn_count - 1].count++;
        if (event->kind == LATHE_MET) own->clock = other->clock = fmax(own->clock, other->clock);
        own->clock += time_of(own, event);
    }
    play->end = fmax(paths[0].clock, paths[1].clock);
}

/* The order of the turns by their times; those of one time stay as they are. Whether it is the same order as before. */
static int sort_turns(const struct play *play, uint8_t *order) {
    size_t heads[2] = {0, 0}, count = play->turn_count;
    int is_same = 1;
    for (size_t k = 0; k < count; k++) {
        for (int p = 0; p < 2; p++)
            while (heads[p] < count && play->turns[heads[p]].path != p + 1) heads[p]++;
        int takes_two = heads[0] >= count || (heads[1] < count && (play->turns[heads[1]].time < play->turns[heads[0]].time
            || (play->turns[heads[1]].time == play->turns[heads[0]].time && heads[1] < heads[0])));
        if (play->turns[k].path != takes_two + 1) is_same = 0;
        order[k] = (uint8_t)(takes_two + 1);
        heads[takes_two]++;
    }
    return is_same;
}

static void print_play(const struct play *play) {
    for (size_t k = 0; k < play->turn_count; k++) {
        for (size_t n = 0; n < play->turns[k].count; n++) {
            const struct lathe_event *event = &play->events[play->turns[k].first + n];
            printf("%10.3f s  path %d  line %d  %s", play->turns[k].time, event->path, (int)event->line, KINDS[event->kind]);
            if ((event->kind >= LATHE_RAPID && event->kind <= LATHE_ARC) || event->kind == LATHE_SHIFT)
                printf(" X%.3f Z%.3f", event->x / 1000.0, event->z / 1000.0);
            else if (event->code != 0) printf(" %d", event->code);
            else if (event->amount != 0) printf(" %d", (int)event->amount);
            putchar('\n');
        }
    }
    printf("%10.3f s  status %d\n", play->end, play->status);
}

int main(int count, char **words) {
    struct text texts[3];
    struct play play = {0};
    size_t turns = 64;
    uint8_t *order = NULL;
    if (count != 4) { fputs("simulator LEFT RIGHT SETTINGS\n", stderr); return 2; }
    for (int k = 0; k < 3; k++) texts[k] = whole(words[k + 1]);
    judge(texts);
    /* First both paths in turn, as long as a run needs, and then in the order that the times make, until that is the same. */
    do {
        turns *= 2;
        order = memory(order, turns);
        for (size_t k = 0; k < turns; k++) order[k] = (uint8_t)(1 + k % 2);
        ask(texts, order, turns, &play);
    } while (play.status == LATHE_STOPPED && turns < MOST_TURNS);
    time_turns(&play);
    for (int round = 0; round < MOST_ROUNDS && !sort_turns(&play, order); round++) {
        ask(texts, order, play.turn_count, &play);
        time_turns(&play);
    }
    print_play(&play);
    return play.status;
}
