/*
 * A voyage's moves from C: pages are made and loaded, moves are stored, asked for and listed, the pages are saved to a file, read
 * back, and asked again; at last a bit of them is spoilt, and they are refused.
 */
#include "lundwazo.h"

#include <stdio.h>
#include <stdlib.h>
#include <string.h>

static const struct lundwazo_limits limits = {.slots = 4, .rows = 8, .bytes = 256, .width = 11};

enum { TURNS = 16, ROOM = 32, PLACES = 8, MOVES_TO_A_SECTION = 8 };

/* Turns, with buffers of their own. */
struct batch {
    size_t length;
    struct lundwazo_turn turns[TURNS];
    uint8_t room[TURNS][ROOM];
    struct lundwazo_place places[TURNS][PLACES];
};

static void add(struct batch *batch, uint64_t call, uint64_t number, const char *key, const char *value) {
    size_t i = batch->length++;
    if (i >= TURNS || strlen(value) > ROOM) {
        exit(2);
    }
    memcpy(batch->room[i], value, strlen(value));
    batch->turns[i] = (struct lundwazo_turn){
        .call = call,
        .number = number,
        .key = (const uint8_t *)key,
        .key_length = strlen(key),
        .bytes = batch->room[i],
        /* A put stores all of its bytes; any other call may fill all the room there is. */
        .bytes_length = call == LUNDWAZO_PUT || call == LUNDWAZO_PUT_MULTI ? strlen(value) : ROOM,
        .places = batch->places[i],
        .places_length = PLACES,
    };
}

static void print_fault(struct lundwazo_parts fault) {
    printf("refused: %llu of layer %llu, section %llu, position %llu, amount %llu\n", (unsigned long long)fault.number,
           (unsigned long long)fault.layer, (unsigned long long)fault.section, (unsigned long long)fault.position,
           (unsigned long long)fault.amount);
}

static void print_answer(const struct lundwazo_turn *turn) {
    struct lundwazo_parts p = turn->answer.parts;
    unsigned long long number = p.number, section = p.section, position = p.position, amount = p.amount;
    switch (turn->answer.kind) {
    case LUNDWAZO_REFUSED:
        print_fault(p);
        break;
    case LUNDWAZO_LOADED:
        printf("loaded %llu records\n", amount);
        break;
    case LUNDWAZO_BELOW_FLOOR:
        printf("below the floor\n");
        break;
    case LUNDWAZO_ALREADY_THERE:
        printf("already there\n");
        break;
    case LUNDWAZO_STORED:
        printf("stored in section %llu at position %llu\n", section, position);
        break;
    case LUNDWAZO_UNCHANGED:
        printf("unchanged\n");
        break;
    case LUNDWAZO_STRUCK:
        printf("struck %llu numbers, %llu records\n", number, amount);
        break;
    case LUNDWAZO_ABSENT:
        printf("absent\n");
        break;
    case LUNDWAZO_FOUND:
        printf("found number %llu at position %llu: %.*s\n", number, position, (int)amount, (const char *)turn->bytes);
        break;
    case LUNDWAZO_NO:
        printf("no\n");
        break;
    case LUNDWAZO_YES:
        printf("yes\n");
        break;
    case LUNDWAZO_LISTED_BY_NUMBER:
    case LUNDWAZO_LISTED_BY_KEY:
        printf("listed %llu:", amount);
        for (uint64_t i = 0; i < p.amount; i++) {
            printf(" %llu/%llu", (unsigned long long)turn->places[i].number, (unsigned long long)turn->places[i].position);
        }
        printf("\n");
        break;
    case LUNDWAZO_COUNTED:
        printf("%llu records of %llu numbers, no floor\n", amount, number);
        break;
    case LUNDWAZO_COUNTED_FROM:
        printf("%llu records of %llu numbers, from %llu\n", amount, number, section);
        break;
    case LUNDWAZO_NO_SUCH_CALL:
        printf("no such call\n");
        break;
    default:
        printf("not made\n");
    }
}

/* Pages of zeros, which keep nothing. */
static struct lundwazo_pages new_pages(void) {
    struct lundwazo_pages pages = {.entries_length = lundwazo_entries_size(&limits), .values_length = lundwazo_values_size(&limits)};
    pages.entries = calloc(pages.entries_length, 1);
    pages.values = calloc(pages.values_length, 1);
    if (pages.entries == NULL || pages.values == NULL) {
        exit(2);
    }
    return pages;
}

static void free_pages(struct lundwazo_pages pages) {
    free(pages.entries);
    free(pages.values);
}

static void run(struct lundwazo_pages *pages, struct lundwazo_pages *saved, struct batch *batch) {
    struct lundwazo_outcome outcome =
        lundwazo_run(pages, saved, &limits, LUNDWAZO_BOX_NUMBERS, LUNDWAZO_FNV, batch->turns, batch->length);
    if (outcome.status != LUNDWAZO_DONE) {
        print_fault(outcome.fault);
        return;
    }
    for (size_t i = 0; i < batch->length; i++) {
        print_answer(&batch->turns[i]);
    }
}

static void save(struct lundwazo_pages pages, FILE *file) {
    rewind(file);
    if (fwrite(pages.entries, 1, pages.entries_length, file) != pages.entries_length ||
        fwrite(pages.values, 1, pages.values_length, file) != pages.values_length) {
        exit(2);
    }
}

static void read_back(struct lundwazo_pages pages, FILE *file) {
    rewind(file);
    if (fread(pages.entries, 1, pages.entries_length, file) != pages.entries_length ||
        fread(pages.values, 1, pages.values_length, file) != pages.values_length) {
        exit(2);
    }
}

int main(void) {
    static struct batch begun, again, bad;
    struct lundwazo_pages pages = new_pages(), saved = new_pages();
    FILE *file = tmpfile();
    if (file == NULL) {
        return 2;
    }
    printf("pages of %zu and %zu bytes\n", pages.entries_length, pages.values_length);

    add(&begun, LUNDWAZO_LOAD, MOVES_TO_A_SECTION, "", "");
    add(&begun, LUNDWAZO_PUT, 7, "CSQU3054383", "bay 12 row 04 tier 82");
    add(&begun, LUNDWAZO_PUT, 7, "CSQU3054383", "bay 14 row 04 tier 82");
    add(&begun, LUNDWAZO_PUT, 9, "CSQU3054384", "a wrong check digit");
    add(&begun, LUNDWAZO_PUT_MULTI, 12, "CSQU3054383", "bay 02 row 01 tier 06");
    add(&begun, LUNDWAZO_GET_NUMBER, 7, "", "");
    add(&begun, LUNDWAZO_GET_NUMBER, 8, "", "");
    add(&begun, LUNDWAZO_LIST_KEY, 0, "CSQU3054383", "");
    add(&begun, LUNDWAZO_COUNTS, 0, "", "");
    add(&begun, 99, 0, "", "");
    run(&pages, &saved, &begun);

    save(saved, file);
    read_back(pages, file);

    printf("read back\n");
    add(&again, LUNDWAZO_LOAD, MOVES_TO_A_SECTION, "", "");
    add(&again, LUNDWAZO_LIST_KEY, 0, "CSQU3054383", "");
    add(&again, LUNDWAZO_PRUNE, 8, "", "");
    add(&again, LUNDWAZO_HAS_NUMBER, 7, "", "");
    add(&again, LUNDWAZO_GET_KEY, 0, "CSQU3054383", "");
    add(&again, LUNDWAZO_COUNTS, 0, "", "");
    run(&pages, &saved, &again);

    printf("spoilt\n");
    read_back(pages, file);
    pages.entries[0] ^= 1;
    add(&bad, LUNDWAZO_LOAD, MOVES_TO_A_SECTION, "", "");
    run(&pages, &saved, &bad);

    fclose(file);
    free_pages(pages);
    free_pages(saved);
    return 0;
}
