/*
 * o32.h - call images, structures and frames of the MIPS O32 convention.
 *
 * Eleven functions do the work:
 *
 *   o32_make_plan  says where each argument of a signature lies, once for all
 *                  lists that have the signature;
 *   o32_fill       turns such a list into a call image, by its plan: the
 *                  contents of the argument registers and of the stack's
 *                  argument area at the moment of the call;
 *   o32_signature  gives the signature of a list;
 *   o32_write      turns a list that is sent once into a call image, without a
 *                  plan;
 *   o32_read       reads such an image back, given the kinds of the arguments;
 *   o32_walk       takes the arguments behind an ellipsis from such an image,
 *                  as the called routine does;
 *   o32_frame      lays out a function's stack frame;
 *   o32_prologue   writes the instructions that set a frame up;
 *   o32_epilogue   writes those that take it down and return;
 *   o32_check_prologue
 *                  says whether instructions from elsewhere set a frame up;
 *   o32_describe   gives the size, the alignment and the kind of a structure,
 *                  from a description of its members.
 *
 * BUFFERS. Every buffer belongs to the caller: the functions allocate nothing,
 * keep no pointer after they have returned, and have no state. A buffer is a
 * pointer and its length, in bytes for all but plans, which are counted in
 * words; a buffer of length 0 may be a null pointer. Inputs are only read. On
 * success exactly the answered length is written, from the start of the output
 * buffer, and what lies beyond it keeps its content. On a refusal nothing of it
 * changes. o32_frame, o32_check_prologue and o32_describe have no output buffer:
 * all that they give is in their answers. The functions may be called from
 * several threads at once.
 *
 * WHAT IS ASKED OF THE CALLER. Each pointer is valid for its length, and that
 * to a plan is aligned as one to uint32_t must be; bytes need no alignment. The
 * output buffer must not overlap another buffer of the same call. During the
 * call no other thread uses the output buffer or writes to an input. Nothing
 * else is asked: any bytes, any words, any lengths and any numbers may be
 * given, and the output buffer needs no content beforehand.
 *
 * ANSWERS. `refusal` is 0 on success, otherwise the number of the refusal (see
 * the tables below). `place` says where, for refusals that have a place, and is
 * 0 otherwise. `argument` says which argument that is, counted from 1, and is 0
 * where there is none. `length` is the number of bytes written, of words by
 * o32_make_plan, and 0 on a refusal. Look at every answer: after a refusal the
 * buffer still holds what it held before, such as the image of an earlier call,
 * and that would be loaded. The compiler warns where an answer is ignored. Of
 * o32_check_prologue look at `refusal` first: its `verdict` is 0 with a refusal
 * as it is for code that is accepted.
 *
 * VERSIONS. O32_VERSION is the version of this header, o32_version() that of
 * the library. Both change with every release that changes or adds a struct or
 * a function here. A program must not go on where they differ: it could take one
 * number of an answer for another, such as the argument for the length.
 * host/c/example.c compares them first of all. A library from before version 1
 * has no o32_version, so a program that asks for it doesn't link.
 *
 * All numbers in lists, images and code are big-endian. Kinds and the bytes of
 * descriptions are written in hexadecimal here.
 *
 *
 * DEVICES
 *
 * The first parameter of each of the eleven but o32_signature and o32_describe
 * is the device, the board that the call or the frame is for:
 *
 *   0  O32_FPU      it has a floating-point unit
 *   1  O32_NO_FPU   it has none
 *
 * Any other number is a device without a floating-point unit too. No device is
 * refused. On a device without a unit no argument goes to a floating register,
 * and a frame can't save one. A list has the same signature on every device,
 * and a structure the same size, alignment and kind, so o32_signature and
 * o32_describe ask for none.
 *
 * A floating-point unit here is one with 32-bit registers (FR = 0, -mfp32). Ask
 * how a routine with an ellipsis was compiled: the System V supplement, which
 * decides here, has a leading float in $f12 there too, while GCC 12 and clang
 * 14 pass all its arguments in $4 to $7 and on the stack. For a routine from
 * these compilers name O32_NO_FPU, whatever the board has.
 *
 *
 * LISTS
 *
 * A list is records end to end. A record is one byte of kind and a body, whose
 * length the kind fixes:
 *
 *   kind    argument                                    body bytes   alignment
 *   01      signed byte                                      1           4
 *   02      unsigned byte                                    1           4
 *   03      signed halfword                                  2           4
 *   04      unsigned halfword                                2           4
 *   05      word or pointer                                  4           4
 *   06      64-bit integer                                   8           8
 *   07      single-precision float, as its bits              4           4
 *   08      double-precision float, as its bits              8           8
 *   0A      ellipsis marker, which is no argument            0           -
 *   0B      pointer for a returned structure                 4           4
 *   40..7F  structure of kind - 3F bytes              1 to  64           4
 *   80..BF  structure of 64 + 4 x (kind - 7F) bytes  68 to 320           4
 *   C0..FF  structure of 8 x (kind - BF) bytes        8 to 512           8
 *
 * Every other kind is unknown. A list may be empty and has at most 32
 * arguments; a return pointer counts as one, the marker doesn't. A return
 * pointer stands first or not at all. The marker says that the arguments behind
 * it match the ellipsis of a prototype, as in f(int, ...); it stands at most
 * once, behind at least one argument that is no return pointer, and may come
 * last.
 *
 * A signature is the kind bytes of a list alone, in order: at most 33, 32
 * arguments and the marker.
 *
 * Example: 05 00000009 45 010203040506 is the word 9 and a structure of six
 * bytes. Its signature is 05 45.
 *
 *
 * IMAGES
 *
 * An image is eight register words and behind them the argument area:
 *
 *   bytes  0 to 15   $4, $5, $6, $7
 *   bytes 16 to 31   $f12, $f13, $f14, $f15
 *   bytes 32 on      the A bytes of the argument area
 *
 * Bytes and halfwords are first promoted to words, by sign or by zero, and
 * structures are rounded up to whole words, with the fill behind their bytes.
 * The arguments then lie in the area like the members of one structure, from
 * offset 0, each at the next multiple of its alignment. The last one may end
 * at 1,024 and not beyond. A is that end rounded up to 8, and at least 16; so
 * an image has 48 to 1,056 bytes.
 *
 *   - Only with a floating-point unit: if the first argument is a float, it
 *     goes to $f12, and if the second is one too and no marker stands before
 *     it, that one goes to $f14. A double takes $f12,$f13 or $f14,$f15: the
 *     even register holds its low half, the last four bytes, and the odd one
 *     its high half, the first four. So 1.0 gives $f12 = 00000000,
 *     $f13 = 3FF00000. A return pointer counts as the first argument.
 *   - Of all others, what lies at an offset o below 16 goes to register
 *     $4 + o/4, and what lies at 16 or above stays in the area at offset o. A
 *     structure may be split so. Without a floating-point unit every argument
 *     goes this way: a double, a single and a double go to $4 and $5, to $6,
 *     and to the area at offset 16. A double lies in the order of its bytes.
 *
 * Whatever carries nothing is zero in an image that o32_fill or o32_write
 * makes: unused registers, holes, fill, and the area's first 16 bytes, the
 * homes of the register words. o32_read and o32_walk ignore such bytes. Without
 * a floating-point unit the four words $f12 to $f15 carry nothing, whatever the
 * arguments are.
 *
 *
 * PLANS
 *
 * A plan is for a signature that is sent many times, as in a sweep. Make it
 * once, from the signature and the device, and fill an image by it for each
 * list that has the signature:
 *
 *   o32_plan plan;
 *   o32_answer made = o32_make_plan(O32_FPU, signature, signature_len,
 *                                   (uint32_t *)&plan, O32_PLAN_WORDS);
 *
 *   and where made.refusal is 0, for each list
 *
 *   o32_answer filled = o32_fill(O32_FPU,
 *                                (const uint32_t *)&plan, O32_PLAN_WORDS,
 *                                list, list_len, image, sizeof image);
 *
 * The image is the one that o32_write gives for the list, byte for byte. What
 * the plan adds is a check: a list that was mistyped, so that its kinds are
 * others than those of the sweep, is refused (but see the marker below). It
 * saves no time, since the list is taken apart on every call and the plan
 * compared. Where there is only a list, o32_signature gives its signature. For
 * a list that is sent once there is o32_write: it answers what the three answer
 * together.
 *
 * A plan is 98 words, O32_PLAN_WORDS, for which o32_plan has names. They are
 * numbers of the machine that calls, not big-endian bytes. Both functions take
 * them as words, so a struct is handed over as above.
 *
 *   words 0 to 95   32 times the kind byte of an argument, its offset, and 12
 *                   or 14 if it goes to $f12 or $f14, else 0
 *   word 96         the count of the arguments
 *   word 97         A, the size of the area
 *
 * The arguments come in their order; entries past the count are zero. The
 * marker is no argument and has no entry: the plan of 05 05 also serves a list
 * with the kinds 05 0A 05. But that of 05 doesn't serve 43, though a structure
 * of four bytes lies as a word does. A plan doesn't hold its device: o32_fill
 * must be told it again, and the plan of another device serves only where it is
 * the same, as it is unless an argument goes to a floating register.
 *
 * o32_fill compares the whole plan on every call, also past the count, with the
 * one that the list's signature has on the device, and uses it for nothing else.
 * So any words may be given: a plan that was damaged, or that isn't the list's,
 * is refused (20).
 *
 * Example: the plan of 08 05 is 08, 0, 12, then 05, 8, 0, then 90 zeros, then
 * the count 2 and the size 16. Without a floating-point unit the third word is
 * 0.
 *
 *
 * ROUTINES WITH AN ELLIPSIS
 *
 * Such a routine stores $4 to $7 in their homes, so that all arguments behind
 * the marker lie in the area, and then goes through memory. It starts at the
 * end of the last argument before the marker; a float in $f12 or $f14 counts by
 * its offset there. It asks for one kind at a time: it goes on to the next
 * multiple of the kind's alignment, takes the bytes there, of a byte or
 * halfword the last one or two of its word, and steps over them, rounded up to
 * whole words. o32_walk does the same, and gives what was taken, the bodies
 * alone, end to end. It is for checking, before an image is loaded, what the
 * routine will see.
 *
 * On an image that o32_read accepts, these are the bodies that o32_read gives
 * for the arguments behind the marker, on every device. Arguments before the
 * marker are not offered: a float there may have an empty home.
 *
 * Example: the list 07 3F800000 0A 08 4000000000000000 is a single, the marker
 * and a double. The single goes to $f12 and ends at offset 4; the walk goes on
 * to 8 and takes $6 and $7, which are 40000000 and 00000000.
 *
 *
 * REFUSALS OF LISTS, SIGNATURES, PLANS AND IMAGES
 *
 * They are those of o32_signature, o32_make_plan, o32_fill, o32_write, o32_read
 * and o32_walk. Records are checked from left to right, each by 1 to 5 in this
 * order; 20, 15, 6, 7 and 8 follow in this order when all records have passed.
 * The place of 1 to 5 is the offset of the record's kind byte in what was
 * given, the list or the signature; that of 8 is the offset of the first such
 * kind byte in the signature. Arguments are counted from 1, a return pointer
 * too and the marker not; the argument is the number that the refused one has
 * or would have.
 *
 *   no.  meaning                                          place      argument
 *    1   unknown kind                                     kind byte  0
 *    2   marker in the wrong place, or repeated           kind byte  0
 *        return pointer in the wrong place, or repeated   kind byte  its number
 *    3   a 33rd argument                                  kind byte  33
 *    4   the body is cut off (lists only)                 kind byte  its number
 *    5   the argument ends beyond 1,024                   kind byte  its number
 *   20   the plan isn't the one that the list's
 *        signature has on the device (o32_fill only)      0          0
 *   15   the signature has no marker (o32_walk only)      0          0
 *    6   the image's length isn't the one that the
 *        signature asks for, 32 + A (o32_read, o32_walk)  0          0
 *    7   the output buffer is shorter than the result     0          0
 *    8   the word of a byte or halfword (01 to 04) is
 *        none that promotion gives, as 00000080 for 01
 *        (o32_read, o32_walk)                             kind byte  its number
 *
 * o32_walk gives 8 just as o32_read does, for arguments before the marker too.
 *
 *
 * DESCRIPTIONS
 *
 * A description is one structure, written in these bytes:
 *
 *   10       opens a structure
 *   11       closes it
 *   01..08   a member, of as many bytes as the body of this kind in a list
 *   12 n     repeats the member right behind it: it stands n times, 1 to 255
 *
 * Between 10 and 11 stand the structure's members, one or more. A member may be
 * a structure itself, whose members are described the same way, to depth 6; the
 * outermost structure is depth 1. What 12 and the count repeat is a byte 01 to
 * 08 or a structure from its 10 to its 11, and may not begin with 12. The count
 * is a number, also where it is 10, 11 or 12.
 *
 * Members have natural alignment, not that of arguments: a byte 1, a halfword
 * 2, a word or a single 4, a 64-bit integer or a double 8, and a structure that
 * of its strictest member. Each lies at the next multiple of its alignment. The
 * size of a structure, also of one that is a member or is repeated, is rounded
 * up to its alignment.
 *
 * The alignment in the answer is the natural one, 1, 2, 4 or 8. The kind is the
 * one that such a structure has in a list: with alignment 8 one of C0..FF, else
 * one of 40..BF, whose arguments are aligned to 4.
 *
 * Example: 10 03 12 02 10 05 01 11 11 is a halfword and twice a structure of a
 * word and a byte. The inner structure has 8 bytes; the outer one has 20,
 * alignment 4 and kind 53.
 *
 * REFUSALS OF o32_describe. Bytes are checked from left to right, each by 16 to
 * 19 in this order. The place is an offset in the description.
 *
 *   no.  meaning                                       place
 *   16   unknown byte, or one that can't stand there   that byte
 *        a repeat of 0                                 the count
 *        bytes are missing                             the description's length
 *        bytes are left over behind the structure      the first of them
 *   17   a structure at depth 7                        its 10
 *   18   a member, its repeats counted, ends above
 *        512 in its structure                          the member's last byte
 *   19   a structure is closed without a member        its 11
 *        every byte has passed, and no kind has the
 *        structure's size and alignment                0
 *
 * For example, there is no kind for 65, 66, 67 or 69 bytes, and with an
 * alignment below 8 there is none for more than 320. No place is above 39,954,
 * however long a description is.
 *
 *
 * FRAMES
 *
 * A request says:
 *
 *   leaf      the function calls no other: 0 is no, anything else yes
 *   locals    bytes of local variables, at most 16,384
 *   outgoing  most bytes of arguments that it passes to a function it calls, at
 *             most 1,024; 0 in a leaf
 *   general   mask of general registers to save: bit k is $k, of $16 to $23,
 *             $28, $30 and $31. A function that is no leaf must save $31. $28
 *             is the global pointer: name it in a function that changes it,
 *             which isn't checked.
 *   pairs     mask of floating pairs to save: bit k, from 0 to 5, is $f20 + 2k
 *             and the register behind it; 0 without a floating-point unit
 *
 * From $sp upward a frame holds
 *
 *   the argument build area   outgoing rounded up to 8, at least 16; 0 in a leaf
 *   the floating save area    8 bytes for each pair
 *   the general save area     4 bytes for each register, rounded up to 8
 *   the locals
 *
 * and ends at the end of the locals rounded up to 8, at most at 17,504. Lower
 * register numbers lie lower.
 *
 * The prologue is addiu $sp,$sp,-F for a frame of F bytes, then swc1 for the
 * floating registers and sw for the general ones, both from the lowest number
 * upward; it is empty if F is 0. The epilogue is lwc1 and lw in the same order,
 * then jr $31, and in its delay slot addiu $sp,$sp,F, or a no-operation if F is
 * 0. The longest prologue has 96 bytes, the longest epilogue 100.
 *
 * Checks in this order; place and, where there is one, argument are 0 for all:
 *
 *   no.  meaning
 *    9   the general mask names another register, or the pair mask is above 63
 *   14   the pair mask isn't 0, and the device has no floating-point unit
 *   10   not a leaf, and $31 isn't named
 *   11   locals above 16,384
 *   12   outgoing above 1,024, or not 0 in a leaf
 *   13   the code buffer is too short (o32_prologue, o32_epilogue)
 *   21   the code's length is no multiple of 4, or above 256
 *        (o32_check_prologue)
 *
 *
 * PROLOGUES FROM ELSEWHERE
 *
 * o32_check_prologue says whether code, as another compiler made it, is a
 * prologue for a request. It is one exactly if its words are
 *
 *   - addiu $sp,$sp,-F, once, before all stores;
 *   - for each register that the request names, both of a pair, the word that
 *     o32_prologue has for it, once, the stores being in any order;
 *   - and 00000000, any number of times and anywhere.
 *
 * For a frame of no bytes the words are 00000000, or there are none. Such code
 * leaves memory and registers as that of o32_prologue does.
 *
 * `verdict` is
 *
 *     0        O32_IS_PROLOGUE: the code is a prologue for the request
 *    16..31    the general register of this number is the first whose store is
 *              missing or is there more than once
 *    52..63    likewise the floating register of this number less 32, where
 *              each general register is stored once
 *   255        O32_OTHER_WORDS: any other word is there, such as one of the
 *              body, or a store at another place, of another register or by
 *              another instruction; or the addiu is missing, is there more than
 *              once or stands behind a store. This comes before the others,
 *              wherever the word stands.
 *
 * Hand over the prologue alone, up to its last store: a word of the body behind
 * it is another word.
 *
 * Example: for a function that is no leaf, saves $16 and $31 and has 4 bytes of
 * locals, 27BDFFE0 AFBF0014 00000000 AFB00010 is a prologue. For 27BDFFE0
 * AFBF0014 the verdict is 16. For 27BDFFE0 AFB00018 AFBF001C it is 255: both
 * registers are stored, but at other places.
 */

#ifndef O32_H
#define O32_H

#include <stddef.h>
#include <stdint.h>

/* The version of this header. The library's must be the same. */
#define O32_VERSION 6

/*
 * Makes the compiler warn where an answer is ignored: by the language's own
 * attribute, which C has from C23 and C++ from C++17 on, or else by that of gcc
 * and clang. Earlier languages must not see the former, though their compilers
 * may know it: -pedantic warns of it there.
 */
#if defined(__cplusplus)
#if __cplusplus >= 201703L
#define O32_NODISCARD [[nodiscard]]
#endif
#elif defined(__STDC_VERSION__) && defined(__has_c_attribute)
#if __STDC_VERSION__ > 201710L && __has_c_attribute(nodiscard)
#define O32_NODISCARD [[nodiscard]]
#endif
#endif
#if !defined(O32_NODISCARD) && (defined(__GNUC__) || defined(__clang__))
#define O32_NODISCARD __attribute__((warn_unused_result))
#endif
#if !defined(O32_NODISCARD)
#define O32_NODISCARD
#endif

#ifdef __cplusplus
extern "C" {
#endif

/* The devices. Any other number is a device without a floating-point unit. */
#define O32_FPU 0u            /* with a floating-point unit */
#define O32_NO_FPU 1u         /* without one */

/* Sizes of buffers that are always enough. */
#define O32_LIST_MAX 1057     /* the longest list that is accepted */
#define O32_SIGNATURE_MAX 33  /* the longest signature that is accepted */
#define O32_PLAN_WORDS 98     /* every plan, in words */
#define O32_IMAGE_MAX 1056    /* the longest image */
#define O32_BODIES_MAX 1020   /* the most bytes of bodies behind a marker */
#define O32_PROLOGUE_MAX 96   /* the longest prologue */
#define O32_EPILOGUE_MAX 100  /* the longest epilogue */

/* The most bytes of code that o32_check_prologue looks at. */
#define O32_CHECKED_MAX 256

/* The verdicts on code that name no register. */
#define O32_IS_PROLOGUE 0u    /* it is a prologue for the request */
#define O32_OTHER_WORDS 255u  /* other words, or no addiu once and first */

/* The refusal numbers. */
enum o32_refusal {
    O32_ACCEPTED = 0,
    O32_UNKNOWN_KIND = 1,
    O32_MISPLACED = 2,
    O32_TOO_MANY_ARGUMENTS = 3,
    O32_BODY_CUT_OFF = 4,
    O32_BEYOND_LIMIT = 5,
    O32_IMAGE_LENGTH = 6,
    O32_SHORT_OUTPUT = 7,
    O32_NO_PROMOTION = 8,
    O32_MASKS = 9,
    O32_RETURN_ADDRESS_NOT_SAVED = 10,
    O32_LOCALS = 11,
    O32_OUTGOING = 12,
    O32_SHORT_CODE = 13,
    O32_PAIRS_WITHOUT_UNIT = 14,
    O32_NO_MARKER = 15,
    O32_MALFORMED_DESCRIPTION = 16,
    O32_TOO_DEEP = 17,
    O32_MEMBER_BEYOND_LIMIT = 18,
    O32_EMPTY_OR_NO_KIND = 19,
    O32_PLAN_DIFFERS = 20,
    O32_CODE_LENGTH = 21
};

/* What all functions answer that have an output buffer. */
typedef struct {
    uint32_t refusal;  /* 0 on success */
    uint32_t place;    /* offset of the refused kind byte, or 0 */
    uint32_t argument; /* number of the refused argument, from 1, or 0 */
    uint32_t length;   /* bytes written, words of a plan; 0 on a refusal */
} o32_answer;

/* Where an argument lies. */
typedef struct {
    uint32_t kind;           /* its kind byte */
    uint32_t offset;         /* its offset, as if all lay in the area */
    uint32_t float_register; /* 12 or 14 if it goes to $f12 or $f14, else 0 */
} o32_placement;

/*
 * Where all arguments of a signature lie: the 98 words of a plan by their
 * names. Hand one over as (uint32_t *)&plan, O32_PLAN_WORDS.
 */
typedef struct {
    o32_placement placements[32]; /* in the order of the arguments */
    uint32_t count;               /* number of arguments; zeros stand past it */
    uint32_t area;                /* size of the argument area */
} o32_plan;

/*
 * What o32_frame answers. Offsets are from $sp inside the frame; that of an
 * empty area is the end of the area below. `gp` may be 0 also where $28 is
 * saved, so `gp_saved` says whether it is. On a refusal all numbers but
 * `refusal` are 0.
 */
typedef struct {
    uint32_t refusal;  /* 0 on success */
    uint32_t place;    /* always 0 */
    uint32_t frame;    /* size of the frame */
    uint32_t build;    /* size of the argument build area, at offset 0 */
    uint32_t floating; /* offset of the floating save area */
    uint32_t general;  /* offset of the general save area */
    uint32_t locals;   /* offset of the locals */
    uint32_t gp_saved; /* 1 if $28, the global pointer, is saved, else 0 */
    uint32_t gp;       /* offset of the word it is saved in; 0 if it isn't */
} o32_layout;

/*
 * What o32_check_prologue answers. The code is a prologue for the request only
 * if both `refusal` and `verdict` are 0.
 */
typedef struct {
    uint32_t refusal; /* 0 if the code was looked at */
    uint32_t place;   /* always 0 */
    uint32_t verdict; /* see above; 0 on a refusal */
} o32_verdict;

/* What o32_describe answers. On a refusal size, alignment and kind are 0. */
typedef struct {
    uint32_t refusal;   /* 0 on success */
    uint32_t place;     /* offset of the refused byte; see the table */
    uint32_t size;      /* bytes of the structure */
    uint32_t alignment; /* its natural alignment: 1, 2, 4 or 8 */
    uint32_t kind;      /* its kind byte in a list, 40 to FF */
} o32_structure;

/* The version of the library: O32_VERSION, if it goes with this header. */
uint32_t o32_version(void);

/*
 * Writes the signature of a list: its kind bytes, in order. Refuses 1 to 5 and
 * 7, the former with their places in the list. A buffer of O32_SIGNATURE_MAX
 * bytes is always enough.
 */
O32_NODISCARD
o32_answer o32_signature(const uint8_t *list, size_t list_len,
                         uint8_t *signature, size_t signature_len);

/*
 * Writes the plan of a signature: O32_PLAN_WORDS words, which is the length
 * answered. `plan_words` is the room, in words. Refuses 1 to 3, 5 and 7.
 */
O32_NODISCARD
o32_answer o32_make_plan(uint32_t device,
                         const uint8_t *signature, size_t signature_len,
                         uint32_t *plan, size_t plan_words);

/*
 * Writes the image of a list by the plan of its signature. `plan_words` is the
 * number of words of the plan; any number but O32_PLAN_WORDS is refused as a
 * plan that differs. Refuses 1 to 5 of the list, then 20, then 7. An image
 * buffer of O32_IMAGE_MAX bytes is always enough.
 */
O32_NODISCARD
o32_answer o32_fill(uint32_t device,
                    const uint32_t *plan, size_t plan_words,
                    const uint8_t *list, size_t list_len,
                    uint8_t *image, size_t image_len);

/*
 * Writes the image of a list, without a plan. Refuses 1 to 5 and 7. An image
 * buffer of O32_IMAGE_MAX bytes is always enough.
 */
O32_NODISCARD
o32_answer o32_write(uint32_t device,
                     const uint8_t *list, size_t list_len,
                     uint8_t *image, size_t image_len);

/*
 * Writes the list that an image reads as under a signature: each kind byte with
 * its body, as o32_fill takes it. `image_len` is the image's exact length, not
 * that of a larger buffer around it. Refuses 1 to 3 and 5 to 8. A list buffer
 * of O32_LIST_MAX bytes is always enough.
 */
O32_NODISCARD
o32_answer o32_read(uint32_t device,
                    const uint8_t *signature, size_t signature_len,
                    const uint8_t *image, size_t image_len,
                    uint8_t *list, size_t list_len);

/*
 * Writes the bodies that a routine with an ellipsis takes from an image behind
 * the marker of a signature: bodies only, end to end, without kind bytes. A
 * marker that comes last gives length 0. `image_len` is the image's exact
 * length. Refuses 1 to 3, 5 to 8 and 15; 7 is for a buffer shorter than these
 * bodies. A buffer of O32_BODIES_MAX bytes is always enough.
 */
O32_NODISCARD
o32_answer o32_walk(uint32_t device,
                    const uint8_t *signature, size_t signature_len,
                    const uint8_t *image, size_t image_len,
                    uint8_t *bodies, size_t bodies_len);

/* Lays out a frame. Refuses 9 to 12 and 14. */
O32_NODISCARD
o32_layout o32_frame(uint32_t device,
                     uint32_t leaf, uint32_t locals, uint32_t outgoing,
                     uint32_t general, uint32_t pairs);

/*
 * Writes a frame's prologue as instruction words. `code_len` and the answered
 * length count bytes. Refuses 9 to 14.
 */
O32_NODISCARD
o32_answer o32_prologue(uint32_t device,
                        uint32_t leaf, uint32_t locals, uint32_t outgoing,
                        uint32_t general, uint32_t pairs,
                        uint8_t *code, size_t code_len);

/* Writes a frame's epilogue, likewise. */
O32_NODISCARD
o32_answer o32_epilogue(uint32_t device,
                        uint32_t leaf, uint32_t locals, uint32_t outgoing,
                        uint32_t general, uint32_t pairs,
                        uint8_t *code, size_t code_len);

/*
 * Says whether code is a prologue for a request: instruction words, big-endian.
 * `code_len` counts bytes. Refuses 9 to 12, 14 and 21.
 */
O32_NODISCARD
o32_verdict o32_check_prologue(uint32_t device,
                               uint32_t leaf, uint32_t locals,
                               uint32_t outgoing,
                               uint32_t general, uint32_t pairs,
                               const uint8_t *code, size_t code_len);

/*
 * Gives the size, the natural alignment and the kind of the structure that a
 * description is of. Refuses 16 to 19.
 */
O32_NODISCARD
o32_structure o32_describe(const uint8_t *description, size_t description_len);

#ifdef __cplusplus
}
#endif

#endif /* O32_H */
