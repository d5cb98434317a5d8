/* What the proved library omi_c offers to C. Its sources are crates/omi_c; each call's clauses stand there.
 *
 * An inquiry reads the target's memory word by word, and C reads it for the inquiry. So an inquiry is asked again: it is handed the
 * words that are known so far, and answers either its result or, with the code OMI_NEEDS_WORD, the byte address of a word that isn't
 * known. C reads that word, adds it to the known ones and asks again.
 *
 * Each inquiry takes the target's layout table first, as omi_judge_table judged it, and then the words that are known.
 */
#ifndef OMI_C_H
#define OMI_C_H

#include <stdbool.h>
#include <stddef.h>
#include <stdint.h>

/* How many words a layout table has. omi_table_words() answers the same. */
#define OMI_TABLE_WORDS 56

/* The codes of an answer: 0, a return code of OMPD (1 to 11), or that of a word that is needed. */
#define OMI_OK 0
#define OMI_NEEDS_WORD 255

/* A layout table that was judged: its code is OMI_OK, an error (4), where the place is the number of the word that is wrong, or incompatible (7).
 * Only omi_judge_table makes one, and nothing else changes it: the library takes the words for a layout where the code is OMI_OK. Where it
 * isn't, each inquiry answers this code and place. */
typedef struct {
  uint32_t code;
  uint64_t place;
  uint64_t words[OMI_TABLE_WORDS];
} omi_judged;

/* A word that is known: what stands at a byte address of the target, which is a multiple of 8. Where nothing is mapped there, the word
 * is 0. */
typedef struct {
  uint64_t addr;
  uint64_t word;
  bool mapped;
} omi_known;

/* An object of the target: the byte address of its record, and the life word that the record has while the object lives. */
typedef struct {
  uint64_t addr;
  uint64_t life;
} omi_object;

/* In each answer but an entry, `place` is the byte address of the word that is needed where the code is OMI_NEEDS_WORD, that of the damaged record
 * or pointer where the code is that of an error (4), and else 0; of a layout table that is refused it is the number of the word that is
 * wrong. What follows it is 0 unless the code is OMI_OK, but for the number of an incomplete value. */

typedef struct {
  uint32_t code;
  uint64_t place;
  omi_object object;
} omi_found;

/* Where the code is that of an incomplete value (11), `number` is the first of several numbers. */
typedef struct {
  uint32_t code;
  uint64_t place;
  uint64_t number;
} omi_number;

typedef struct {
  uint32_t code;
  uint64_t place;
  uint32_t state;
  uint64_t wait;
} omi_state;

/* The frames' byte addresses, 0 where there is none, with their flags. */
typedef struct {
  uint32_t code;
  uint64_t place;
  uint64_t exit_frame;
  uint64_t enter_frame;
  uint8_t exit_flag;
  uint8_t enter_flag;
} omi_frames;

/* `length` is the length of the text in bytes. The bytes, as many as there is room for, were put at the front of `to`; no zero byte
 * ends them. */
typedef struct {
  uint32_t code;
  uint64_t place;
  uint64_t length;
} omi_text;

/* The entry of an enumeration behind another: its number, its scope where it is a control variable, and whether more follow. Its name
 * was put as a text's bytes are. */
typedef struct {
  uint32_t code;
  uint32_t next;
  uint32_t scope;
  bool more;
  uint64_t length;
} omi_entry;

/* The verdict on words: yes, where they show a well-formed state by the records of so many regions and tasks; or else the clause that fails
 * first, from 1 to 8, with the byte address and the number of the field at which it fails (docs/AUDIT.md). */
typedef struct {
  uint32_t code;
  uint64_t place;
  bool yes;
  uint64_t records;
  uint64_t addr;
  uint8_t field;
  uint8_t clause;
} omi_audited;

#define OMI_WORDS const omi_judged *table, const omi_known *known, size_t known_count

/* Of the library itself. */
uint64_t omi_table_words(void);
uint64_t omi_api_version(void);
uint64_t omi_version_text(uint8_t *to, size_t room);         /* the text's length */

/* Judges the words of a layout table. */
omi_judged omi_judge_table(const uint64_t *table, size_t table_words);

/* Threads and regions. A kind of native ids is that of the target's thread ids; here kind 0 is the only one. */
omi_found omi_thread_with_id(OMI_WORDS, uint32_t kind, uint64_t native);
omi_found omi_thread_in_parallel(OMI_WORDS, omi_object region, uint32_t member);
omi_number omi_thread_id(OMI_WORDS, uint32_t kind, omi_object thread);
omi_found omi_curr_parallel(OMI_WORDS, omi_object thread);
omi_found omi_enclosing_parallel(OMI_WORDS, omi_object region);
omi_found omi_task_parallel(OMI_WORDS, omi_object task);

/* Tasks. */
omi_found omi_curr_task(OMI_WORDS, omi_object thread);
omi_found omi_generating_task(OMI_WORDS, omi_object task);
omi_found omi_scheduling_task(OMI_WORDS, omi_object task);
omi_found omi_task_in_parallel(OMI_WORDS, omi_object region, uint32_t member);
omi_number omi_task_function(OMI_WORDS, omi_object task);
omi_frames omi_task_frame(OMI_WORDS, omi_object task);

/* The task with which the program begins. */
omi_found omi_initial_task(OMI_WORDS);

/* States, control variables and the tool's word. A scope is a number of OpenMP 5.0: 2 address space, 3 thread, 4 parallel, 6 task; the
 * object is not looked at for the address space. The text of the control variables of the address space is asked for by index. */
omi_state omi_thread_state(OMI_WORDS, omi_object thread);
omi_number omi_icv_number(OMI_WORDS, uint32_t scope, omi_object object, uint32_t icv);
omi_text omi_icv_text(OMI_WORDS, uint32_t scope, omi_object object, uint32_t icv, uint8_t *to, size_t room);
omi_text omi_control_var(OMI_WORDS, uint32_t index, uint8_t *to, size_t room);
omi_number omi_tool_data(OMI_WORDS, uint32_t scope, omi_object object);

/* OpenMP's version: that of the target's runtime as year and month, and the library's as text. */
omi_number omi_openmp_version(OMI_WORDS);
omi_text omi_openmp_text(const omi_judged *table, uint8_t *to, size_t room);

/* Enumerations, behind the entry of a number; 258 (0x102) is before the first state, 0 before the first variable. */
omi_entry omi_next_state(const omi_judged *table, uint32_t current, uint8_t *to, size_t room);
omi_entry omi_next_icv(const omi_judged *table, uint32_t current, uint8_t *to, size_t room);

/* The audit of a target's records, whose words stand one behind another from the byte address `start` on. No other word counts as mapped. */
omi_audited omi_audit(const omi_judged *table, uint64_t start, const uint64_t *words, size_t count);

/* The text that names a field, by its number, and `layout` for 0. The code is that of bad input (3) where no field has the number. */
omi_text omi_field_text(uint32_t field, uint8_t *to, size_t room);

/* The order of two objects of a kind: by address, and then by life word. -1, 0 or 1. */
int32_t omi_compare(omi_object a, omi_object b);

#endif
