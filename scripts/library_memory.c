/* library_memory LEFT RIGHT SETTINGS: calls the library over a heap that refuses one allocation, the first, the second and so on, until
   a call asks for no more. Each call must answer 12, leave the room as it was and free all that it took, or else answer what it
   answers with memory. It prints how many calls of each kind there were. */
#include "lathe.h"
#include <stdio.h>
#include <stdlib.h>
#include <string.h>

struct given {
    _Bool is_given;
    void *at;
};

static char nothing;
static size_t refused, calls, held;

static _Bool is_refused(void) { return ++calls == refused; }

struct given rattle_alloc(size_t size, size_t align);
struct given rattle_realloc(void *at, size_t kept, size_t size, size_t align);
void rattle_dealloc(void *at);

struct given rattle_alloc(size_t size, size_t align) {
    struct given it = {0, &nothing};
    void *at = is_refused() ? NULL : malloc(size != 0 ? size : align);
    if (at == NULL) return it;
    held++;
    it.is_given = 1;
    it.at = at;
    return it;
}

struct given rattle_realloc(void *at, size_t kept, size_t size, size_t align) {
    struct given it = {0, &nothing};
    void *found = is_refused() ? NULL : realloc(at, size != 0 ? size : align);
    (void)kept;
    if (found == NULL) return it;
    it.is_given = 1;
    it.at = found;
    return it;
}

void rattle_dealloc(void *at) {
    held--;
    free(at);
}

enum { ROOM = 1 << 16, EVENTS = ROOM / sizeof(struct lathe_event), TURNS = 400 };
static _Alignas(8) uint8_t room[ROOM];
static uint8_t texts[3][1 << 16], due[ROOM], order[TURNS];
static size_t lengths[3];

#define TEXTS texts[0], lengths[0], texts[1], lengths[1], texts[2], lengths[2]

static uint8_t ask(int what, size_t *length) {
    uint8_t status;
    struct lathe_refusal refusal;
    switch (what) {
        case 0: return lathe_verify(TEXTS, room, ROOM, length);
        case 1: return lathe_run(TEXTS, 1000, room, ROOM, length);
        case 2: return lathe_trace(TEXTS, 1000, room, ROOM, length);
        case 3: return lathe_state(TEXTS, 1000, room, ROOM, length);
        case 4: return lathe_waits(TEXTS, 1, 0, room, ROOM, length);
        case 5: return lathe_races(TEXTS, room, ROOM, length);
        case 6: return lathe_expand(texts[0], lengths[0], room, ROOM, length);
        case 7: return lathe_plain(texts[0], lengths[0], texts[2], lengths[2], room, ROOM, length);
        case 8: return lathe_zones(TEXTS, (const uint8_t *)"gap X5. Z5.\n", 12, 1000, room, ROOM, length);
        case 9:
            status = lathe_judge(TEXTS, &refusal);
            *length = 0;
            /* (without memory the refusal is all 0, and the room is as it was) */
            if (status == LATHE_NO_MEMORY) return refusal.number == 0 && refusal.line == 0 ? status : 99;
            *length = sizeof refusal;
            memcpy(room, &refusal, sizeof refusal);
            return status;
        default:
            status = lathe_events(TEXTS, order, TURNS, (struct lathe_event *)(void *)room, EVENTS, length);
            *length *= sizeof(struct lathe_event);
            return status;
    }
}

/* Asks with each allocation refused in turn. Whether each answer was right. */
static int refuse_each(int what) {
    static uint8_t clean[ROOM];
    size_t due_length = 0, length, lacking = 0;
    memset(room, 46, ROOM);
    refused = 0;
    uint8_t due_status = ask(what, &due_length);
    memcpy(due, room, ROOM);
    memset(clean, 46, ROOM);
    for (refused = 1;; refused++) {
        memset(room, 46, ROOM);
        calls = 0;
        length = 1;
        uint8_t status = ask(what, &length);
        int is_whole = status == due_status && length == due_length && memcmp(room, due, ROOM) == 0;
        int is_lacking = status == LATHE_NO_MEMORY && length == 0 && memcmp(room, clean, ROOM) == 0;
        if (held != 0 || !(is_whole || is_lacking)) {
            printf("call %d, allocation %zu: status %d, length %zu, %zu blocks are held\n", what, refused, status, length, held);
            return 0;
        }
        lacking += (size_t)is_lacking;
        if (calls < refused) break;
    }
    printf("call %d: status %d, %zu allocations, %zu times no memory\n", what, due_status, refused - 1, lacking);
    return lacking > 0;
}

int main(int count, char **words) {
    if (count != 4) return 2;
    for (int k = 0; k < 3; k++) {
        FILE *file = fopen(words[k + 1], "rb");
        if (file == NULL) return 13;
        lengths[k] = fread(texts[k], 1, sizeof texts[k], file);
        fclose(file);
    }
    for (int k = 0; k < TURNS; k++) order[k] = (uint8_t)(1 + k % 2);
    for (int what = 0; what < 11; what++)
        if (!refuse_each(what)) return 1;
    return 0;
}
