/*
 * A worked example: a sweep of calls by one plan, a call image written, read
 * back and taken apart as a routine with an ellipsis does, a frame's code, code
 * of another compiler for a frame, and described structures.
 *
 * Every buffer comes from malloc with exactly the length that is passed on, so
 * that a memory checker sees a byte or a word read or written too far.
 */

#include "o32.h"

#include <inttypes.h>
#include <stdio.h>
#include <stdlib.h>
#include <string.h>

static int passed;
static int failed;

/* Counts a check and says how it went. */
static void check(int holds, const char *what)
{
    if (holds) {
        passed++;
    } else {
        failed++;
    }
    printf("%s: %s\n", holds ? "ok" : "WRONG", what);
}

/* A buffer of its own, filled with a byte that no result here consists of. */
static uint8_t *buffer(size_t length)
{
    /* C++ asks for the cast. */
    uint8_t *bytes = (uint8_t *)malloc(length > 0 ? length : 1);
    if (bytes == NULL) {
        fputs("out of memory\n", stderr);
        exit(2);
    }
    memset(bytes, 0xA5, length);
    return bytes;
}

static uint8_t *copy_of(const uint8_t *content, size_t length)
{
    uint8_t *bytes = buffer(length);
    memcpy(bytes, content, length);
    return bytes;
}

/* Room for words, filled with the same byte. */
static uint32_t *word_buffer(size_t count)
{
    return (uint32_t *)(void *)buffer(count * sizeof(uint32_t));
}

static uint32_t *copy_of_words(const uint32_t *content, size_t count)
{
    uint32_t *words = word_buffer(count);
    memcpy(words, content, count * sizeof(uint32_t));
    return words;
}

static int all_are(const uint8_t *bytes, size_t length, uint8_t value)
{
    for (size_t i = 0; i < length; i++) {
        if (bytes[i] != value) {
            return 0;
        }
    }
    return 1;
}

static int is_answer(o32_answer answer, uint32_t refusal, uint32_t place,
                     uint32_t argument, uint32_t length)
{
    return answer.refusal == refusal && answer.place == place &&
           answer.argument == argument && answer.length == length;
}

static int is_refused(o32_layout layout, uint32_t refusal)
{
    return layout.refusal == refusal && layout.place == 0 &&
           layout.frame == 0 && layout.build == 0 && layout.floating == 0 &&
           layout.general == 0 && layout.locals == 0 &&
           layout.gp_saved == 0 && layout.gp == 0;
}

static int is_structure(o32_structure structure, uint32_t size,
                        uint32_t alignment, uint32_t kind)
{
    return structure.refusal == 0 && structure.place == 0 &&
           structure.size == size && structure.alignment == alignment &&
           structure.kind == kind;
}

static int is_no_structure(o32_structure structure, uint32_t refusal,
                           uint32_t place)
{
    return structure.refusal == refusal && structure.place == place &&
           structure.size == 0 && structure.alignment == 0 &&
           structure.kind == 0;
}

static uint32_t word_at(const uint8_t *bytes, size_t index)
{
    const uint8_t *b = bytes + 4 * index;
    return (uint32_t)b[0] << 24 | (uint32_t)b[1] << 16 | (uint32_t)b[2] << 8 |
           (uint32_t)b[3];
}

static void print_words(const char *name, const uint8_t *bytes, size_t count)
{
    printf("%s:", name);
    for (size_t i = 0; i < count; i++) {
        printf(" %08lX", (unsigned long)word_at(bytes, i));
    }
    putchar('\n');
}

static int are_words(const uint8_t *bytes, const uint32_t *words, size_t count)
{
    for (size_t i = 0; i < count; i++) {
        if (word_at(bytes, i) != words[i]) {
            return 0;
        }
    }
    return 1;
}

/* The words of a plan have the names of o32_plan, in their order. */
static void plan_layout(void)
{
    const size_t word = sizeof(uint32_t);
    check(sizeof(o32_placement) == 3 * word &&
              offsetof(o32_placement, kind) == 0 &&
              offsetof(o32_placement, offset) == word &&
              offsetof(o32_placement, float_register) == 2 * word,
          "a placement is kind, offset and floating register");
    check(sizeof(o32_plan) == O32_PLAN_WORDS * word && O32_PLAN_WORDS == 98 &&
              offsetof(o32_plan, placements) == 0 &&
              offsetof(o32_plan, count) == 96 * word &&
              offsetof(o32_plan, area) == 97 * word,
          "a plan is 32 placements, count and area, which are 98 words");
}

/* The plan of a signature, which is not refused. */
static o32_plan *plan_of(uint32_t device, const uint8_t *kinds, size_t length)
{
    uint8_t *signature = copy_of(kinds, length);
    o32_plan *plan = (o32_plan *)(void *)buffer(sizeof(o32_plan));
    if (!is_answer(o32_make_plan(device, signature, length, (uint32_t *)plan,
                                 O32_PLAN_WORDS),
                   0, 0, 0, O32_PLAN_WORDS) ||
        memcmp(signature, kinds, length) != 0) {
        check(0, "a plan is made");
    }
    free(signature);
    return plan;
}

static int is_placement(o32_placement placement, uint32_t kind,
                        uint32_t offset, uint32_t float_register)
{
    return placement.kind == kind && placement.offset == offset &&
           placement.float_register == float_register;
}

/* Whether a plan has this count, zeros past it, and this area. */
static int ends_with(const o32_plan *plan, uint32_t count, uint32_t area)
{
    for (size_t i = count; i < 32; i++) {
        if (!is_placement(plan->placements[i], 0, 0, 0)) {
            return 0;
        }
    }
    return plan->count == count && plan->area == area;
}

/* The calls of a sweep: a double, a word, a signed byte, a structure of six. */
static const uint8_t sweep_kinds[] = {0x08, 0x05, 0x01, 0x45};
enum { SWEEP_LIST = 9 + 5 + 2 + 7, SWEEP_IMAGE = 56 };

static uint8_t *sweep_list(uint8_t step)
{
    const uint8_t list[SWEEP_LIST] = {
        0x08, 0x3F, 0xF0, 0, 0, 0, 0, 0, step, 0x05, 0, 0,
        1,    step, 0x01, (uint8_t)(0x7C + step), 0x45, 1, 2, 3, 4, 5, step};
    return copy_of(list, sizeof list);
}

/* What the plan of the sweep says by its names. */
static void plan_of_sweep(void)
{
    o32_plan *plan = plan_of(O32_FPU, sweep_kinds, sizeof sweep_kinds);
    check(is_placement(plan->placements[0], 0x08, 0, 12) &&
              is_placement(plan->placements[1], 0x05, 8, 0) &&
              is_placement(plan->placements[2], 0x01, 12, 0) &&
              is_placement(plan->placements[3], 0x45, 16, 0) &&
              ends_with(plan, 4, 24),
          "the plan has a placement for each argument");
    free(plan);

    plan = plan_of(O32_NO_FPU, sweep_kinds, sizeof sweep_kinds);
    check(is_placement(plan->placements[0], 0x08, 0, 0) &&
              ends_with(plan, 4, 24),
          "without a unit the double is in no floating register");
    free(plan);

    plan = plan_of(O32_FPU, sweep_kinds, 0);
    check(ends_with(plan, 0, 16), "without arguments only the homes remain");
    free(plan);
}

/* Whether a list has the image of o32_write when it is filled by the plan. */
static int filled_as_written(uint32_t device, const o32_plan *plan,
                             const uint8_t *list)
{
    uint32_t *words = copy_of_words((const uint32_t *)plan, O32_PLAN_WORDS);
    uint8_t *filled = buffer(SWEEP_IMAGE);
    uint8_t *written = buffer(SWEEP_IMAGE);
    int alike = is_answer(o32_fill(device, words, O32_PLAN_WORDS, list,
                                   SWEEP_LIST, filled, SWEEP_IMAGE),
                          0, 0, 0, SWEEP_IMAGE) &&
                is_answer(o32_write(device, list, SWEEP_LIST, written,
                                    SWEEP_IMAGE),
                          0, 0, 0, SWEEP_IMAGE) &&
                memcmp(filled, written, SWEEP_IMAGE) == 0 &&
                memcmp(words, plan, sizeof *plan) == 0;
    free(written);
    free(filled);
    free(words);
    return alike;
}

/* One plan serves all lists of its signature. */
static void sweep(uint32_t device)
{
    o32_plan *plan = plan_of(device, sweep_kinds, sizeof sweep_kinds);
    int alike = 1;
    for (uint8_t step = 0; step < 8; step++) {
        uint8_t *list = sweep_list(step);
        alike = alike && filled_as_written(device, plan, list);
        free(list);
    }
    printf("device %08" PRIX32 "\n", device);
    check(alike, "one plan gives all images of a sweep");
    free(plan);
}

/* Whether the words are refused as a plan, and the image buffer stays. */
static int plan_differs(uint32_t device, const uint32_t *words, size_t count,
                        const uint8_t *list, size_t length)
{
    uint8_t *image = buffer(SWEEP_IMAGE);
    int differs = is_answer(o32_fill(device, words, count, list, length, image,
                                     SWEEP_IMAGE),
                            O32_PLAN_DIFFERS, 0, 0, 0) &&
                  all_are(image, SWEEP_IMAGE, 0xA5);
    free(image);
    return differs;
}

/* Every word of a plan counts, and every part of a word. */
static void changed_plans(void)
{
    static const uint32_t changes[] = {1, 0x100, 0x10000, 0x80000000};

    o32_plan *plan = plan_of(O32_FPU, sweep_kinds, sizeof sweep_kinds);
    uint32_t *words = (uint32_t *)plan;
    uint8_t *list = sweep_list(3);
    int refused = 1;
    for (size_t i = 0; i < O32_PLAN_WORDS; i++) {
        for (size_t j = 0; j < sizeof changes / sizeof changes[0]; j++) {
            words[i] += changes[j];
            refused = refused && plan_differs(O32_FPU, words, O32_PLAN_WORDS,
                                              list, SWEEP_LIST);
            words[i] -= changes[j];
        }
    }
    check(refused, "a plan with one word changed is refused");
    check(filled_as_written(O32_FPU, plan, list),
          "and serves again when it is as it was");
    free(list);
    free(plan);
}

/* So does the number of its words. */
static void plans_of_other_lengths(void)
{
    const size_t fewer = O32_PLAN_WORDS - 1, more = O32_PLAN_WORDS + 1;

    o32_plan *plan = plan_of(O32_FPU, sweep_kinds, sizeof sweep_kinds);
    uint8_t *list = sweep_list(3);
    check(plan_differs(O32_FPU, NULL, 0, list, SWEEP_LIST),
          "no words are no plan");

    uint32_t *words = copy_of_words((const uint32_t *)plan, fewer);
    check(plan_differs(O32_FPU, words, fewer, list, SWEEP_LIST),
          "nor is one without its last word a plan");
    free(words);

    words = word_buffer(more);
    memcpy(words, plan, sizeof *plan);
    check(plan_differs(O32_FPU, words, more, list, SWEEP_LIST),
          "nor one with a word too many");
    free(words);
    free(list);
    free(plan);
}

/* A plan holds neither the marker nor the device, but the kinds themselves. */
static void plans_of_others(void)
{
    static const uint8_t words[] = {0x05, 0x05};
    static const uint8_t marked[] = {0x05, 0, 0, 0, 1, 0x0A, 0x05, 0, 0, 0, 2};
    static const uint8_t four[] = {0x05, 0, 0, 0, 1, 0x43, 0, 0, 0, 2};

    o32_plan *plan = plan_of(O32_FPU, words, sizeof words);
    uint8_t *list = copy_of(marked, sizeof marked);
    uint8_t *image = buffer(48);
    check(is_answer(o32_fill(O32_NO_FPU, (const uint32_t *)plan,
                             O32_PLAN_WORDS, list, sizeof marked, image, 48),
                    0, 0, 0, 48) &&
              word_at(image, 0) == 1 && word_at(image, 1) == 2,
          "a plan of words serves with a marker, and on another device");
    free(image);
    free(list);

    list = copy_of(four, sizeof four);
    check(plan_differs(O32_FPU, (const uint32_t *)plan, O32_PLAN_WORDS, list,
                       sizeof four),
          "but a structure of four bytes is no word");
    free(list);
    free(plan);

    plan = plan_of(O32_NO_FPU, sweep_kinds, sizeof sweep_kinds);
    list = sweep_list(3);
    check(plan_differs(O32_FPU, (const uint32_t *)plan, O32_PLAN_WORDS, list,
                       SWEEP_LIST),
          "nor serves a plan without a unit where a float goes to $f12");
    free(list);
    free(plan);
}

/* The list is looked at first, then the plan, then the room for the image. */
static void refused_fills(void)
{
    uint32_t *words = word_buffer(O32_PLAN_WORDS);
    uint8_t *list = sweep_list(3);
    uint8_t *image = buffer(SWEEP_IMAGE - 1);
    check(is_answer(o32_fill(O32_FPU, words, O32_PLAN_WORDS, list,
                             SWEEP_LIST - 1, NULL, 0),
                    O32_BODY_CUT_OFF, 16, 4, 0) &&
              is_answer(o32_fill(O32_FPU, NULL, 0, list, SWEEP_LIST - 1, NULL,
                                 0),
                        O32_BODY_CUT_OFF, 16, 4, 0),
          "a list that is cut off is refused before any plan");
    check(is_answer(o32_fill(O32_FPU, words, O32_PLAN_WORDS, list, SWEEP_LIST,
                             NULL, 0),
                    O32_PLAN_DIFFERS, 0, 0, 0),
          "then words that are no plan, before the room");

    o32_plan *plan = plan_of(O32_FPU, sweep_kinds, sizeof sweep_kinds);
    check(is_answer(o32_fill(O32_FPU, (const uint32_t *)plan, O32_PLAN_WORDS,
                             list, SWEEP_LIST, image, SWEEP_IMAGE - 1),
                    O32_SHORT_OUTPUT, 0, 0, 0) &&
              all_are(image, SWEEP_IMAGE - 1, 0xA5),
          "then the room, and the buffer stays");
    free(plan);
    free(image);
    free(list);
    free(words);
}

/* A refused signature has its place, and the words stay. */
static void refused_plans(void)
{
    static const uint8_t kinds[] = {0x05, 0x0A, 0x0B};
    const size_t fewer = O32_PLAN_WORDS - 1, more = O32_PLAN_WORDS + 1;

    uint8_t *signature = copy_of(kinds, sizeof kinds);
    uint32_t *words = word_buffer(fewer);
    check(is_answer(o32_make_plan(O32_FPU, signature, 3, words, fewer),
                    O32_MISPLACED, 2, 2, 0) &&
              is_answer(o32_make_plan(O32_FPU, signature, 2, words, fewer),
                        O32_SHORT_OUTPUT, 0, 0, 0) &&
              all_are((const uint8_t *)words, fewer * sizeof(uint32_t), 0xA5),
          "a signature is looked at, then the room, and the words stay");
    free(words);

    words = word_buffer(more);
    check(is_answer(o32_make_plan(O32_FPU, signature, 2, words, more), 0, 0, 0,
                    O32_PLAN_WORDS) &&
              words[O32_PLAN_WORDS - 1] == 16 &&
              words[O32_PLAN_WORDS] == UINT32_C(0xA5A5A5A5),
          "a word past the plan stays");
    check(is_answer(o32_make_plan(O32_FPU, NULL, 0, words, more), 0, 0, 0,
                    O32_PLAN_WORDS) &&
              is_answer(o32_make_plan(O32_FPU, NULL, 0, NULL, 0),
                        O32_SHORT_OUTPUT, 0, 0, 0),
          "the empty signature has a plan, which needs its room");
    free(words);
    free(signature);
}

/* A caller that has a list gets its signature, whatever the device. */
static void signatures(void)
{
    uint8_t *list = sweep_list(0);
    uint8_t *signature = buffer(sizeof sweep_kinds + 1);
    check(is_answer(o32_signature(list, SWEEP_LIST, signature,
                                  sizeof sweep_kinds - 1),
                    O32_SHORT_OUTPUT, 0, 0, 0) &&
              is_answer(o32_signature(list, SWEEP_LIST - 1, signature,
                                      sizeof sweep_kinds - 1),
                        O32_BODY_CUT_OFF, 16, 4, 0) &&
              all_are(signature, sizeof sweep_kinds + 1, 0xA5),
          "no signature of a list that is cut off, nor in a short buffer");
    check(is_answer(o32_signature(list, SWEEP_LIST, signature,
                                  sizeof sweep_kinds + 1),
                    0, 0, 0, sizeof sweep_kinds) &&
              memcmp(signature, sweep_kinds, sizeof sweep_kinds) == 0 &&
              signature[sizeof sweep_kinds] == 0xA5,
          "a list has the kinds of its arguments");
    check(is_answer(o32_signature(NULL, 0, NULL, 0), 0, 0, 0, 0),
          "the empty list has none");
    free(signature);
    free(list);
}

/* 32 words and a marker: the longest signature, and a plan without a rest. */
static void longest_signature(void)
{
    const size_t length = 32 * 5 + 1;
    uint8_t *list = buffer(length);
    for (size_t i = 0; i < 32; i++) {
        list[5 * i] = 0x05;
    }
    list[length - 1] = 0x0A;

    uint8_t *signature = buffer(O32_SIGNATURE_MAX);
    check(is_answer(o32_signature(list, length, signature, O32_SIGNATURE_MAX),
                    0, 0, 0, 33) &&
              all_are(signature, 32, 0x05) && signature[32] == 0x0A,
          "32 arguments and a marker have 33 kinds");
    o32_plan *plan = plan_of(O32_FPU, signature, O32_SIGNATURE_MAX);
    check(is_placement(plan->placements[0], 0x05, 0, 0) &&
              is_placement(plan->placements[31], 0x05, 124, 0) &&
              ends_with(plan, 32, 128),
          "and their plan has an entry for each argument");
    free(plan);
    free(signature);
    free(list);
}

/* Plan once, fill many. */
static void plans(void)
{
    plan_layout();
    plan_of_sweep();
    signatures();
    longest_signature();
    sweep(O32_FPU);
    sweep(O32_NO_FPU);
    sweep(UINT32_C(0x100));
    sweep(UINT32_C(0xFFFFFFFF));
    changed_plans();
    plans_of_other_lengths();
    plans_of_others();
    refused_fills();
    refused_plans();
}

/* The word 9 and a structure of six bytes: $4, $5 and $6. */
static void call_image(void)
{
    static const uint8_t list[] = {0x05, 0, 0, 0, 9, 0x45, 1, 2, 3, 4, 5, 6};
    static const uint8_t kinds[] = {0x05, 0x45};
    static const uint32_t words[12] = {0x00000009, 0x01020304, 0x05060000};

    uint8_t *given = copy_of(list, sizeof list);
    uint8_t *image = buffer(48);
    check(is_answer(o32_write(O32_FPU, given, sizeof list, image, 48), 0, 0,
                    0, 48),
          "the list is written to an image of 48 bytes");
    print_words("$4 to $7", image, 4);
    print_words("$f12 to $f15", image + 16, 4);
    print_words("argument area", image + 32, 4);
    check(are_words(image, words, 12), "the image has the expected words");

    uint8_t *signature = copy_of(kinds, sizeof kinds);
    uint8_t *reading = buffer(sizeof list);
    check(is_answer(o32_read(O32_FPU, signature, sizeof kinds, image, 48,
                             reading, sizeof list),
                    0, 0, 0, sizeof list),
          "the image is read back");
    check(memcmp(reading, list, sizeof list) == 0,
          "the reading is the list that was written");
    check(memcmp(given, list, sizeof list) == 0 &&
              memcmp(signature, kinds, sizeof kinds) == 0,
          "list and signature are as they were");

    free(reading);
    free(signature);
    free(image);
    free(given);
}

/* An empty buffer may be a null pointer. */
static void empty_buffers(void)
{
    uint8_t *image = buffer(48);
    check(is_answer(o32_write(O32_FPU, NULL, 0, image, 48), 0, 0, 0, 48) &&
              all_are(image, 48, 0),
          "the empty list gives 48 zero bytes");
    check(is_answer(o32_read(O32_FPU, NULL, 0, image, 48, NULL, 0), 0, 0, 0,
                    0),
          "which read as the empty list");
    check(is_answer(o32_write(O32_FPU, NULL, 0, NULL, 0), O32_SHORT_OUTPUT, 0,
                    0, 0),
          "and don't go into an empty buffer");
    check(is_answer(o32_read(O32_FPU, NULL, 0, NULL, 0, NULL, 0),
                    O32_IMAGE_LENGTH, 0, 0, 0),
          "no image has length 0");
    check(is_answer(o32_prologue(O32_FPU, 1, 0, 0, 0, 0, NULL, 0), 0, 0, 0,
                    0),
          "a leaf without a frame has an empty prologue");
    check(is_answer(o32_epilogue(O32_FPU, 1, 0, 0, 0, 0, NULL, 0),
                    O32_SHORT_CODE, 0, 0, 0),
          "but no empty epilogue");
    free(image);
}

/* A refusal says where and which argument, and leaves the output alone. */
static void refusals(void)
{
    static const uint8_t list[] = {0x01, 0x80, 0x05, 0x00};
    static const uint8_t kinds[] = {0x01};

    uint8_t *given = copy_of(list, sizeof list);
    uint8_t *image = buffer(48);
    check(is_answer(o32_write(O32_FPU, given, sizeof list, image, 48),
                    O32_BODY_CUT_OFF, 2, 2, 0) &&
              all_are(image, 48, 0xA5),
          "a list that is cut off is refused, the image buffer stays");

    memset(image, 0, 48);
    image[3] = 0x80;
    uint8_t *signature = copy_of(kinds, sizeof kinds);
    uint8_t *reading = buffer(2);
    check(is_answer(o32_read(O32_FPU, signature, 1, image, 48, reading, 2),
                    O32_NO_PROMOTION, 0, 1, 0) &&
              all_are(reading, 2, 0xA5),
          "00000080 is no signed byte, the list buffer stays");

    free(reading);
    free(signature);
    free(image);
    free(given);
}

/* Arguments are counted from 1; the marker's byte counts only for the place. */
static void argument_numbers(void)
{
    static const uint8_t pointer[] = {0x05, 0, 0, 0, 9, 0x0A, 0x0B, 0, 0, 0, 0};
    static const uint8_t markers[] = {0x05, 0, 0, 0, 9, 0x0A, 0x0A};
    static const uint8_t kinds[] = {0x05, 0x0A, 0x01};

    uint8_t *given = copy_of(pointer, sizeof pointer);
    uint8_t *image = buffer(48);
    check(is_answer(o32_write(O32_FPU, given, sizeof pointer, image, 48),
                    O32_MISPLACED, 6, 2, 0),
          "a return pointer behind a word and a marker would be argument 2");
    free(given);

    given = copy_of(markers, sizeof markers);
    check(is_answer(o32_write(O32_FPU, given, sizeof markers, image, 48),
                    O32_MISPLACED, 6, 0, 0),
          "a second marker is no argument");
    free(given);

    memset(image, 0, 48);
    image[7] = 0x80;
    uint8_t *signature = copy_of(kinds, sizeof kinds);
    uint8_t *reading = buffer(8);
    check(is_answer(o32_read(O32_FPU, signature, sizeof kinds, image, 48,
                             reading, 8),
                    O32_NO_PROMOTION, 2, 2, 0),
          "the byte behind a word and a marker is argument 2");

    free(reading);
    free(signature);
    free(image);
}

/* A single, the marker, a double, a signed byte and a structure of six. */
static const uint8_t variadic[] = {0x07, 0x3F, 0x80, 0,    0,    0x0A,
                                   0x08, 1,    2,    3,    4,    5,
                                   6,    7,    8,    0x01, 0x80, 0x45,
                                   0x11, 0x12, 0x13, 0x14, 0x15, 0x16};
static const uint8_t variadic_kinds[] = {0x07, 0x0A, 0x08, 0x01, 0x45};

/* What a routine takes behind the marker. */
static const uint8_t unnamed[] = {1,    2,    3,    4,    5,    6,    7,   8,
                                  0x80, 0x11, 0x12, 0x13, 0x14, 0x15, 0x16};

/* The list's image with other bytes in $4, $5 and the homes. */
static uint8_t *variadic_image(void)
{
    uint8_t *given = copy_of(variadic, sizeof variadic);
    uint8_t *image = buffer(64);
    check(is_answer(o32_write(O32_FPU, given, sizeof variadic, image, 64), 0,
                    0, 0, 64),
          "a list with a marker is written");
    memset(image, 0xEE, 8);
    memset(image + 32, 0xEE, 16);
    free(given);
    return image;
}

/* The single ends at 4, so the double is in $6 and $7, the rest from 16 on. */
static void check_walk(uint32_t device, const uint8_t *image,
                       const char *what)
{
    uint8_t *signature = copy_of(variadic_kinds, sizeof variadic_kinds);
    uint8_t *bodies = buffer(sizeof unnamed);
    check(is_answer(o32_walk(device, signature, sizeof variadic_kinds, image,
                             64, bodies, sizeof unnamed),
                    0, 0, 0, sizeof unnamed) &&
              memcmp(bodies, unnamed, sizeof unnamed) == 0 &&
              memcmp(signature, variadic_kinds, sizeof variadic_kinds) == 0,
          what);
    free(bodies);
    free(signature);
}

static void refused_walks(const uint8_t *image)
{
    const size_t kinds = sizeof variadic_kinds, room = sizeof unnamed - 1;
    uint8_t *signature = copy_of(variadic_kinds, kinds);
    uint8_t *bodies = buffer(room);

    check(is_answer(o32_walk(O32_FPU, signature, 1, image, 64, bodies, room),
                    O32_NO_MARKER, 0, 0, 0),
          "a signature without a marker is refused before the image");
    check(is_answer(o32_walk(O32_FPU, signature, kinds, image, 48, bodies,
                             room),
                    O32_IMAGE_LENGTH, 0, 0, 0),
          "then the image's length is looked at");
    check(is_answer(o32_walk(O32_FPU, signature, kinds, image, 64, bodies,
                             room),
                    O32_SHORT_OUTPUT, 0, 0, 0) &&
              all_are(bodies, room, 0xA5),
          "then the room for the bodies, and the buffer stays");
    check(is_answer(o32_walk(O32_FPU, signature, 2, image, 48, NULL, 0), 0, 0,
                    0, 0),
          "a marker that comes last has nothing behind it");

    free(bodies);
    free(signature);
}

/* The arguments before the marker must be proper promotions as well. */
static void improper_before_marker(void)
{
    static const uint8_t kinds[] = {0x01, 0x0A, 0x05};

    uint8_t *signature = copy_of(kinds, sizeof kinds);
    uint8_t *image = buffer(48);
    uint8_t *bodies = buffer(4);
    memset(image, 0, 48);
    image[2] = 1;
    check(is_answer(o32_walk(O32_FPU, signature, sizeof kinds, image, 48,
                             bodies, 4),
                    O32_NO_PROMOTION, 0, 1, 0) &&
              all_are(bodies, 4, 0xA5),
          "00000100 before the marker is no signed byte");
    free(bodies);
    free(image);
    free(signature);
}

/* What a routine with an ellipsis takes is the same on every device. */
static void ellipsis(void)
{
    uint8_t *image = variadic_image();
    check_walk(O32_FPU, image, "the bodies behind the marker are taken");
    check_walk(O32_NO_FPU, image, "without a unit they are the same");
    check_walk(UINT32_C(0xFFFFFFFF), image, "also by another number");
    refused_walks(image);
    free(image);
    improper_before_marker();
}

/* What o32_frame answers is nine words. */
static void words_of_layout(void)
{
    const size_t word = sizeof(uint32_t);
    check(sizeof(o32_layout) == 9 * word &&
              offsetof(o32_layout, locals) == 6 * word &&
              offsetof(o32_layout, gp_saved) == 7 * word &&
              offsetof(o32_layout, gp) == 8 * word,
          "a layout is nine words, and the last two are of $28");
}

/* A function that calls others, saves $16 and has one word of locals. */
static void example_frame(void)
{
    static const uint32_t prologue[] = {0x27BDFFE0, 0xAFB00010, 0xAFBF0014};
    static const uint32_t epilogue[] = {0x8FB00010, 0x8FBF0014, 0x03E00008,
                                        0x27BD0020};
    const uint32_t general = UINT32_C(1) << 16 | UINT32_C(1) << 31;

    o32_layout layout = o32_frame(O32_FPU, 0, 4, 0, general, 0);
    printf("frame %lu: build area of %lu, saves at %lu and %lu, locals at %lu\n",
           (unsigned long)layout.frame, (unsigned long)layout.build,
           (unsigned long)layout.floating, (unsigned long)layout.general,
           (unsigned long)layout.locals);
    check(layout.refusal == 0 && layout.place == 0 && layout.frame == 32 &&
              layout.build == 16 && layout.floating == 16 &&
              layout.general == 16 && layout.locals == 24 &&
              layout.gp_saved == 0 && layout.gp == 0,
          "the frame is laid out as expected");

    uint8_t *code = buffer(12);
    check(is_answer(o32_prologue(O32_FPU, 0, 4, 0, general, 0, code, 12), 0, 0,
                    0, 12) &&
              are_words(code, prologue, 3),
          "the prologue is as expected");
    print_words("prologue", code, 3);
    free(code);

    code = buffer(16);
    check(is_answer(o32_epilogue(O32_FPU, 0, 4, 0, general, 0, code, 16), 0, 0,
                    0, 16) &&
              are_words(code, epilogue, 4),
          "the epilogue is as expected");
    print_words("epilogue", code, 4);
    free(code);

    layout = o32_frame(O32_FPU, 0, 4, 0, UINT32_C(1) << 16, 0);
    check(is_refused(layout, O32_RETURN_ADDRESS_NOT_SAVED),
          "without $31 the frame is refused");
    check(o32_frame(O32_FPU, 2, 0, 0, 0, 0).refusal == 0,
          "any leaf but 0 is a leaf");
}

/* The masks of $28, of $23 and $30, and of all registers that may be saved. */
static const uint32_t gp_mask = UINT32_C(1) << 28;
static const uint32_t around_gp = UINT32_C(1) << 23 | UINT32_C(1) << 30;
static const uint32_t all_registers = 0xD0FF0000;

/* Whether a leaf with this mask has this frame, and $28 saved like this. */
static int leaf_has_gp(uint32_t general, uint32_t frame, uint32_t gp_saved,
                       uint32_t gp)
{
    o32_layout layout = o32_frame(O32_FPU, 1, 0, 0, general, 0);
    return layout.refusal == 0 && layout.frame == frame &&
           layout.gp_saved == gp_saved && layout.gp == gp;
}

/* A function that changes the global pointer saves $28 like the others. */
static void global_pointer(void)
{
    const uint32_t beside_sp = gp_mask | UINT32_C(1) << 29;

    check(leaf_has_gp(around_gp | gp_mask, 16, 1, 4),
          "$28 is saved between $23 and $30");
    check(leaf_has_gp(gp_mask, 8, 1, 0), "alone in a leaf it is saved at 0");
    check(leaf_has_gp(around_gp, 8, 0, 0) && leaf_has_gp(0, 0, 0, 0),
          "where it isn't named it isn't saved");
    check(is_refused(o32_frame(O32_FPU, 1, 0, 0, beside_sp, 0), O32_MASKS),
          "$29 may not be named beside it");
}

/* The words of a leaf that saves $23, $28 and $30. */
static void code_with_gp(void)
{
    static const uint32_t prologue[] = {0x27BDFFF0, 0xAFB70000, 0xAFBC0004,
                                        0xAFBE0008};
    static const uint32_t epilogue[] = {0x8FB70000, 0x8FBC0004, 0x8FBE0008,
                                        0x03E00008, 0x27BD0010};
    const uint32_t general = around_gp | gp_mask;

    uint8_t *code = buffer(16);
    check(is_answer(o32_prologue(O32_FPU, 1, 0, 0, general, 0, code, 16), 0, 0,
                    0, 16) &&
              are_words(code, prologue, 4),
          "the prologue stores $28 in the order of the numbers");
    free(code);

    code = buffer(20);
    check(is_answer(o32_epilogue(O32_FPU, 1, 0, 0, general, 0, code, 20), 0, 0,
                    0, 20) &&
              are_words(code, epilogue, 5),
          "the epilogue loads it in the same order");
    free(code);
}

/* The code of a function that saves all that it may, in a buffer. */
static o32_answer longest_prologue(uint8_t *code, size_t length)
{
    return o32_prologue(O32_FPU, 0, 16384, 1024, all_registers, 63, code,
                        length);
}

static o32_answer longest_epilogue(uint8_t *code, size_t length)
{
    return o32_epilogue(O32_FPU, 0, 16384, 1024, all_registers, 63, code,
                        length);
}

/* Whether code fits a fresh buffer of this length, and none of a byte less. */
static int fits_exactly(o32_answer (*write)(uint8_t *, size_t), uint8_t *code,
                        uint32_t length)
{
    return is_answer(write(code, length - 1), O32_SHORT_CODE, 0, 0, 0) &&
           all_are(code, length, 0xA5) &&
           is_answer(write(code, length), 0, 0, 0, length);
}

/* The largest frame, with code buffers of the length and one byte less. */
static void largest_frame(void)
{
    o32_layout layout = o32_frame(O32_FPU, 0, 16384, 1024, all_registers, 63);
    check(layout.refusal == 0 && layout.frame == 17504 &&
              layout.general == 1072 && layout.locals == 1120 &&
              layout.gp_saved == 1 && layout.gp == 1104,
          "the largest frame has 17,504 bytes");

    uint8_t *code = buffer(O32_PROLOGUE_MAX);
    check(O32_PROLOGUE_MAX == 96 &&
              fits_exactly(longest_prologue, code, O32_PROLOGUE_MAX) &&
              word_at(code, 0) == 0x27BDBBA0 &&
              word_at(code, 23) == 0xAFBF0458,
          "its prologue has 96 bytes, and no shorter buffer will do");
    free(code);

    code = buffer(O32_EPILOGUE_MAX);
    check(O32_EPILOGUE_MAX == 100 &&
              fits_exactly(longest_epilogue, code, O32_EPILOGUE_MAX) &&
              word_at(code, 22) == 0x8FBF0458 &&
              word_at(code, 24) == 0x27BD4460,
          "its epilogue has 100 bytes, and no shorter buffer will do");
    free(code);
}

/* What o32_check_prologue answers is three words. */
static void words_of_verdict(void)
{
    const size_t word = sizeof(uint32_t);
    check(sizeof(o32_verdict) == 3 * word &&
              offsetof(o32_verdict, refusal) == 0 &&
              offsetof(o32_verdict, place) == word &&
              offsetof(o32_verdict, verdict) == 2 * word,
          "a verdict is refusal, place and verdict");
}

static int is_verdict(o32_verdict answer, uint32_t refusal, uint32_t verdict)
{
    return answer.refusal == refusal && answer.place == 0 &&
           answer.verdict == verdict;
}

/* Code of words, big-endian, in a buffer of its own. */
static uint8_t *code_of(const uint32_t *words, size_t count)
{
    uint8_t *code = buffer(4 * count);
    for (size_t i = 0; i < 4 * count; i++) {
        code[i] = (uint8_t)(words[i / 4] >> (24 - 8 * (i % 4)));
    }
    return code;
}

/*
 * What is said of words as the prologue of a function that calls others, saves
 * $16 and $31, the pair $f20 and $f21 too if `pairs` is 1, and has one word of
 * locals. The code must stay as it is.
 */
static o32_verdict verdict_on(uint32_t device, uint32_t pairs,
                              const uint32_t *words, size_t count)
{
    const uint32_t general = UINT32_C(1) << 16 | UINT32_C(1) << 31;

    uint8_t *code = code_of(words, count);
    o32_verdict answer =
        o32_check_prologue(device, 0, 4, 0, general, pairs, code, 4 * count);
    if (!are_words(code, words, count)) {
        check(0, "code is as it was");
    }
    free(code);
    return answer;
}

/* The stores may stand in any order, and 00000000 anywhere. */
static void prologues_of_others(void)
{
    static const uint32_t turned[] = {0, 0x27BDFFE0, 0xAFBF0014, 0,
                                      0xAFB00010, 0};
    static const uint32_t pair[] = {0x27BDFFD8, 0xAFB00018, 0xE7B50014,
                                    0xAFBF001C, 0xE7B40010};

    check(is_verdict(verdict_on(O32_FPU, 0, turned, 6), 0, O32_IS_PROLOGUE) &&
              is_verdict(verdict_on(O32_NO_FPU, 0, turned, 6), 0,
                         O32_IS_PROLOGUE),
          "a prologue has its stores in any order, and no-operations");
    check(is_verdict(verdict_on(O32_FPU, 1, pair, 5), 0, 0) &&
              is_verdict(verdict_on(O32_NO_FPU, 1, pair, 5),
                         O32_PAIRS_WITHOUT_UNIT, 0),
          "with a pair both its registers, and not without a unit");
    check(is_verdict(verdict_on(O32_FPU, 1, pair, 4), 0, 52) &&
              is_verdict(verdict_on(O32_FPU, 1, pair, 3), 0, 31),
          "the first register is named that is not stored");
    check(is_verdict(verdict_on(O32_FPU, 1, pair, 2), 0, 31) &&
              is_verdict(verdict_on(O32_FPU, 1, pair, 1), 0, 16),
          "and general registers are named before floating ones");
}

/* A doubled store has its register's number, any other word 255. */
static void no_prologues(void)
{
    static const uint32_t doubled[] = {0x27BDFFE0, 0xAFBF0014, 0xAFB00010,
                                       0xAFBF0014, 0xAFBF0014};
    static const uint32_t elsewhere[] = {0x27BDFFE0, 0xAFB00018, 0xAFBF001C};
    static const uint32_t body[] = {0x27BDFFE0, 0xAFBF0014, 0x00808021};
    static const uint32_t late[] = {0xAFBF0014, 0x27BDFFE0, 0xAFB00010};

    check(is_verdict(verdict_on(O32_FPU, 0, doubled, 4), 0, 31) &&
              is_verdict(verdict_on(O32_FPU, 0, doubled, 5), 0, 31),
          "a register that is stored twice or more is named");
    check(is_verdict(verdict_on(O32_FPU, 0, elsewhere, 3), 0,
                     O32_OTHER_WORDS),
          "registers at other places are other words");
    check(is_verdict(verdict_on(O32_FPU, 0, body, 3), 0, O32_OTHER_WORDS) &&
              is_verdict(verdict_on(O32_FPU, 0, body, 2), 0, 16),
          "so is a word of the body, whatever is missing");
    check(is_verdict(verdict_on(O32_FPU, 0, late, 3), 0, O32_OTHER_WORDS) &&
              is_verdict(verdict_on(O32_FPU, 0, NULL, 0), 0, O32_OTHER_WORDS),
          "and $sp is moved first");
}

/* A leaf without a frame has no words, or no-operations. */
static void prologues_of_no_frame(void)
{
    static const uint32_t addiu[] = {0x27BD0000};

    uint8_t *code = code_of(addiu, 1);
    check(is_verdict(o32_check_prologue(O32_FPU, 1, 0, 0, 0, 0, NULL, 0), 0,
                     O32_IS_PROLOGUE) &&
              is_verdict(o32_check_prologue(O32_FPU, 1, 0, 0, 0, 0, code, 4),
                         0, O32_OTHER_WORDS),
          "a leaf without a frame does not move $sp, not even by 0");
    free(code);
}

/* Lengths from 0 to some beyond the most that is looked at. */
static void lengths_of_code(void)
{
    int as_expected = 1;
    for (size_t length = 0; length < O32_CHECKED_MAX + 9; length++) {
        uint32_t refusal = 0;
        if (length % 4 != 0 || length > O32_CHECKED_MAX) {
            refusal = O32_CODE_LENGTH;
        }
        uint8_t *code = buffer(length);
        memset(code, 0, length);
        as_expected =
            as_expected &&
            is_verdict(o32_check_prologue(O32_FPU, 1, 0, 0, 0, 0, code, length),
                       refusal, 0) &&
            is_verdict(o32_check_prologue(O32_FPU, 0, 0, 0, 0, 0, code, length),
                       O32_RETURN_ADDRESS_NOT_SAVED, 0);
        free(code);
    }
    check(as_expected && O32_CHECKED_MAX == 256,
          "code has whole words, at most 64; the request is looked at first");
}

/* What o32_prologue writes is a prologue. */
static void own_prologue(void)
{
    uint8_t *code = buffer(O32_PROLOGUE_MAX);
    check(longest_prologue(code, O32_PROLOGUE_MAX).refusal == 0 &&
              is_verdict(o32_check_prologue(O32_FPU, 0, 16384, 1024,
                                            all_registers, 63, code,
                                            O32_PROLOGUE_MAX),
                         0, O32_IS_PROLOGUE),
          "the longest prologue is one");
    check(is_verdict(o32_check_prologue(O32_FPU, 0, 16384, 1024, all_registers,
                                        63, code, O32_PROLOGUE_MAX - 4),
                     0, 31),
          "and without its last word it lacks the store of $31");
    free(code);
}

/* Prologues of another compiler. */
static void checked_prologues(void)
{
    words_of_verdict();
    prologues_of_others();
    no_prologues();
    prologues_of_no_frame();
    lengths_of_code();
    own_prologue();
}

static void frames(void)
{
    words_of_layout();
    example_frame();
    global_pointer();
    code_with_gp();
    largest_frame();
    checked_prologues();
}

/* A double, a single and a double. */
static const uint8_t floats[] = {0x08, 1,    2,    3,    4,    5,    6,    7,
                                 8,    0x07, 0x11, 0x12, 0x13, 0x14, 0x08, 0x21,
                                 0x22, 0x23, 0x24, 0x25, 0x26, 0x27, 0x28};
static const uint8_t float_kinds[] = {0x08, 0x07, 0x08};

/* The floats on a device: 32 bytes of registers and 24 of area. */
static void check_floats(uint32_t device, const uint32_t *words,
                         const char *what)
{
    uint8_t *given = copy_of(floats, sizeof floats);
    uint8_t *image = buffer(56);
    check(is_answer(o32_write(device, given, sizeof floats, image, 56), 0, 0,
                    0, 56) &&
              are_words(image, words, 14),
          what);
    free(image);
    free(given);
}

/* Without a floating-point unit the floating words of an image are ignored. */
static void check_reading(uint32_t device, const uint32_t *words,
                          const char *what)
{
    uint8_t *signature = copy_of(float_kinds, sizeof float_kinds);
    uint8_t *image = buffer(56);
    for (size_t i = 0; i < 56; i++) {
        image[i] = (uint8_t)(words[i / 4] >> (24 - 8 * (i % 4)));
    }
    memset(image + 16, 0xFF, 16);
    uint8_t *reading = buffer(sizeof floats);
    check(is_answer(o32_read(device, signature, sizeof float_kinds, image, 56,
                             reading, sizeof floats),
                    0, 0, 0, sizeof floats) &&
              memcmp(reading, floats, sizeof floats) == 0,
          what);
    free(reading);
    free(image);
    free(signature);
}

/* What a device without a floating-point unit answers. */
static void no_unit(uint32_t device)
{
    static const uint32_t words[14] = {
        0x01020304, 0x05060708, 0x11121314, 0, 0, 0, 0, 0,
        0, 0, 0, 0, 0x21222324, 0x25262728};
    const uint32_t general = UINT32_C(1) << 31;

    printf("device %08" PRIX32 "\n", device);
    check_floats(device, words,
                 "two floats are in $4, $5 and $6, the third at 16");
    check_reading(device, words, "the floating words are ignored");
    check(is_refused(o32_frame(device, 0, 0, 0, general, 1),
                     O32_PAIRS_WITHOUT_UNIT),
          "a frame may not save a pair");
    check(is_refused(o32_frame(device, 0, 0, 0, 0, 63),
                     O32_PAIRS_WITHOUT_UNIT) &&
              is_refused(o32_frame(device, 0, 0, 0, 0, 64), O32_MASKS),
          "which is refused before $31 is asked for, and behind a wrong mask");

    uint8_t *code = buffer(O32_EPILOGUE_MAX);
    check(is_answer(o32_prologue(device, 0, 0, 0, general, 1, code,
                                 O32_EPILOGUE_MAX),
                    O32_PAIRS_WITHOUT_UNIT, 0, 0, 0) &&
              is_answer(o32_epilogue(device, 0, 0, 0, general, 1, code,
                                     O32_EPILOGUE_MAX),
                        O32_PAIRS_WITHOUT_UNIT, 0, 0, 0) &&
              all_are(code, O32_EPILOGUE_MAX, 0xA5),
          "nor is there a prologue or an epilogue, the code buffer stays");
    free(code);
}

/* Any number but O32_FPU is a device without a floating-point unit. */
static void devices(void)
{
    static const uint32_t words[14] = {
        0, 0, 0, 0, 0x05060708, 0x01020304, 0x11121314, 0,
        0, 0, 0, 0, 0x21222324, 0x25262728};
    const uint32_t general = UINT32_C(1) << 31;

    check_floats(O32_FPU, words,
                 "with a unit two floats are in $f12 to $f14, the third at 16");
    check(o32_frame(O32_FPU, 0, 0, 0, general, 1).refusal == 0,
          "a frame with a unit may save a pair");
    no_unit(O32_NO_FPU);
    no_unit(UINT32_C(0x100));
    no_unit(UINT32_C(0x80000000));
    no_unit(UINT32_C(0xFFFFFFFF));
}

/* What is answered to a description, which must stay as it is. */
static o32_structure described(const uint8_t *description, size_t length)
{
    uint8_t *given = copy_of(description, length);
    o32_structure structure = o32_describe(given, length);
    if (memcmp(given, description, length) != 0) {
        check(0, "a description is as it was");
    }
    free(given);
    return structure;
}

/* A halfword, and twice a structure of a word and a byte. */
static const uint8_t nested[] = {0x10, 0x03, 0x12, 0x02, 0x10,
                                 0x05, 0x01, 0x11, 0x11};

/* The kind of a described structure is for lists. */
static void described_argument(void)
{
    o32_structure structure = described(nested, sizeof nested);
    printf("structure of %lu bytes, alignment %lu, kind %02lX\n",
           (unsigned long)structure.size, (unsigned long)structure.alignment,
           (unsigned long)structure.kind);
    check(is_structure(structure, 20, 4, 0x53),
          "a structure with a structure in it has 20 bytes");

    uint8_t *list = buffer(1 + 20);
    list[0] = (uint8_t)structure.kind;
    uint8_t *image = buffer(56);
    check(is_answer(o32_write(O32_FPU, list, 1 + 20, image, 56), 0, 0, 0, 56),
          "and its kind is that of a body of 20 bytes");
    check(is_answer(o32_write(O32_FPU, list, 1 + 19, image, 56),
                    O32_BODY_CUT_OFF, 0, 1, 0),
          "and of no fewer");
    free(image);
    free(list);
}

/* Every beginning of a description lacks bytes. */
static void descriptions_cut_off(void)
{
    int refused = 1;
    for (size_t length = 0; length < sizeof nested; length++) {
        refused = refused && is_no_structure(described(nested, length),
                                             O32_MALFORMED_DESCRIPTION,
                                             (uint32_t)length);
    }
    check(refused, "a description that is cut off is refused at its length");
    check(is_no_structure(o32_describe(NULL, 0), O32_MALFORMED_DESCRIPTION, 0),
          "also an empty one, which may be a null pointer");
}

/* Each refusal of a description, and the last sizes before some of them. */
static void refused_descriptions(void)
{
    static const uint8_t zero[] = {0x10, 0x12, 0x00, 0x05, 0x11};
    static const uint8_t count[] = {0x10, 0x12, 0x11, 0x05, 0x11};
    static const uint8_t deep[] = {0x10, 0x10, 0x10, 0x10, 0x10, 0x10, 0x10};
    static const uint8_t large[] = {0x10, 0x12, 0x40, 0x06, 0x01, 0x11};
    static const uint8_t largest[] = {0x10, 0x12, 0x40, 0x06, 0x11};
    static const uint8_t empty[] = {0x10, 0x11};
    static const uint8_t odd[] = {0x10, 0x12, 0x41, 0x01, 0x11, 0x00};

    check(is_no_structure(described(zero, sizeof zero),
                          O32_MALFORMED_DESCRIPTION, 2),
          "no member is repeated 0 times");
    check(is_structure(described(count, sizeof count), 68, 4, 0x80),
          "a count may equal the byte that closes a structure");
    check(is_no_structure(described(deep, sizeof deep), O32_TOO_DEEP, 6),
          "no structure stands at depth 7");
    check(is_no_structure(described(large, sizeof large),
                          O32_MEMBER_BEYOND_LIMIT, 4) &&
              is_structure(described(largest, sizeof largest), 512, 8, 0xFF),
          "a member may end at 512 and not above");
    check(is_no_structure(described(empty, sizeof empty),
                          O32_EMPTY_OR_NO_KIND, 1),
          "a structure has a member");
    check(is_no_structure(described(odd, sizeof odd - 1),
                          O32_EMPTY_OR_NO_KIND, 0),
          "no kind has 65 bytes");
    check(is_no_structure(described(odd, sizeof odd),
                          O32_MALFORMED_DESCRIPTION, 5),
          "which is looked at only if no byte is left over");
}

/* With another version the numbers of an answer could be misread. */
static int has_version_of_header(void)
{
    uint32_t version = o32_version();
    if (version != O32_VERSION) {
        fprintf(stderr,
                "o32.h has version %d and the library version %" PRIu32
                ": take both from the same place, and build the library again "
                "with rt lib in crates/capi\n",
                O32_VERSION, version);
        return 0;
    }
    return 1;
}

int main(void)
{
    if (!has_version_of_header()) {
        return EXIT_FAILURE;
    }
    plans();
    call_image();
    empty_buffers();
    refusals();
    argument_numbers();
    ellipsis();
    frames();
    devices();
    described_argument();
    descriptions_cut_off();
    refused_descriptions();
    printf("%d passed, %d failed\n", passed, failed);
    return failed == 0 ? EXIT_SUCCESS : EXIT_FAILURE;
}
