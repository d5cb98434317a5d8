/* The proved audit as C calls it: over the words of stopped programs, some of which are changed, damaged tables, and other ranges. */
#include "library.h"
#include "omi_c.h"

#include <stdio.h>
#include <stdlib.h>
#include <string.h>

/* Words of the layout table. */
enum { RT_PLACE = 1, THREADS = 3, OFFSETS = 11 };

/* Fields by their numbers. */
enum {
  RT_VERSION = 1, RT_PROCS = 3, THREAD_NATIVE = 8, THREAD_CUR, THREAD_STATE, REGION_FUNC = 14, REGION_ENCLOSING, REGION_LEVELS = 18,
  REGION_TEAM = 24, TASK_REGION = 27, TASK_NUMBER = 29, TASK_SCHEDULING = 31, TASK_DYN = 35, TASK_SLOTS = 44
};

/* The words of a core from its first segment to the end of its last, with zeros between them, and its layout table. */
struct memory {
  uint64_t start;
  size_t count;
  uint64_t *words;
  uint64_t table[OMI_TABLE_WORDS];
};

static void read_core(struct memory *memory, const char *folder, const char *name)
{
  struct target target;
  open_target(&target, folder, name);
  const struct segment *first = target.segment, *last = first + target.segments - 1;
  *memory = (struct memory){first->start, (last->start - first->start) / WORD + last->words, NULL, {0}};
  memory->words = calloc(memory->count, WORD);
  EXPECT(memory->words);
  for (const struct segment *segment = first; segment <= last; segment++)
    for (size_t place = 0; place < segment->words; place++)
      memory->words[(segment->start - first->start) / WORD + place] = word_of(&target, segment->bytes + place * WORD);
  for (size_t place = 0; place < OMI_TABLE_WORDS; place++)
    memory->table[place] = layout_word(&target, place);
  close_target(&target);
}

static omi_audited audited(const struct memory *memory)
{
  omi_judged table = omi_judge_table(memory->table, OMI_TABLE_WORDS);
  return omi_audit(&table, memory->start, memory->words, memory->count);
}

static uint64_t *word(const struct memory *memory, uint64_t address)
{
  EXPECT(address >= memory->start && (address - memory->start) / WORD < memory->count);
  return memory->words + (address - memory->start) / WORD;
}

/* The address of a place of a field of the record at an address. */
static uint64_t address_of(const struct memory *memory, uint64_t record, int field, int place)
{
  return record + WORD * (memory->table[OFFSETS + field] + (uint64_t)place);
}

/* The field's first word in thread 0's record, and in what its current task names. */
static uint64_t thread_0(const struct memory *memory, int field)
{
  return address_of(memory, memory->table[THREADS], field, 0);
}
static uint64_t task_0(const struct memory *memory, int field)
{
  return address_of(memory, *word(memory, thread_0(memory, THREAD_CUR)), field, 0);
}
static uint64_t region_0(const struct memory *memory, int field)
{
  return address_of(memory, *word(memory, task_0(memory, TASK_REGION)), field, 0);
}

static bool is_no(omi_audited got, uint64_t address, int field, int clause)
{
  return got.code == OMI_OK && got.place == 0 && !got.yes && got.records == 0 && got.addr == address && got.field == field
         && got.clause == clause;
}

/* No by a clause at a word, where this stands there. */
static void refuses(struct memory *memory, uint64_t address, uint64_t instead, int field, int clause)
{
  uint64_t *at = word(memory, address), before = *at;
  *at = instead;
  EXPECT(is_no(audited(memory), address, field, clause));
  *at = before;
  EXPECT(audited(memory).yes);
}

/* No by a clause where the chain of a field leads from a record to itself. */
static void comes_back(struct memory *memory, uint64_t record, int field, int clause)
{
  uint64_t *at = word(memory, address_of(memory, record, field, 0)), before = *at;
  *at = record;
  EXPECT(is_no(audited(memory), record, field, clause));
  *at = before;
  EXPECT(audited(memory).yes);
}

/* Each clause but the first, at a word that it speaks of. */
static void clauses(struct memory *memory)
{
  uint64_t task = *word(memory, thread_0(memory, THREAD_CUR)), region = *word(memory, task_0(memory, TASK_REGION));
  uint64_t group = address_of(memory, task, TASK_SLOTS, 4), open = address_of(memory, task, TASK_SLOTS, 5);
  refuses(memory, address_of(memory, memory->table[RT_PLACE], RT_VERSION, 0), 201811 + 1, RT_VERSION, 2);
  refuses(memory, address_of(memory, memory->table[RT_PLACE], RT_PROCS, 0), 0, RT_PROCS, 2);
  refuses(memory, thread_0(memory, THREAD_NATIVE), 1001, THREAD_NATIVE, 3);
  refuses(memory, thread_0(memory, THREAD_STATE), 2, THREAD_STATE, 3);
  refuses(memory, thread_0(memory, THREAD_CUR), task + WORD, THREAD_CUR, 4);
  refuses(memory, region_0(memory, REGION_TEAM), 0, REGION_TEAM, 4);
  refuses(memory, region_0(memory, REGION_FUNC), 0x400008, REGION_FUNC, 5);
  refuses(memory, region_0(memory, REGION_LEVELS), 300, REGION_LEVELS, 5);
  refuses(memory, task_0(memory, TASK_NUMBER), 64, TASK_NUMBER, 6);
  refuses(memory, task_0(memory, TASK_DYN), 2, TASK_DYN, 6);
  refuses(memory, open, 5, TASK_SLOTS, 6);
  refuses(memory, group, 3, TASK_SLOTS, 6);
  comes_back(memory, task, TASK_SCHEDULING, 7);
  comes_back(memory, region, REGION_ENCLOSING, 8);
}

/* A range that ends before a word, begins behind it, or begins at no multiple of 8, doesn't have it. */
static void ranges(struct memory *memory)
{
  uint64_t version = address_of(memory, memory->table[RT_PLACE], RT_VERSION, 0);
  size_t before = (version - memory->start) / WORD;
  const omi_judged judged = omi_judge_table(memory->table, OMI_TABLE_WORDS), *table = &judged;
  const uint64_t *words = memory->words;
  EXPECT(is_no(omi_audit(table, memory->start, words, before), version, RT_VERSION, 1));
  EXPECT(is_no(omi_audit(table, memory->start, words, 0), version, RT_VERSION, 1));
  EXPECT(is_no(omi_audit(table, memory->start + 1, words, memory->count), version, RT_VERSION, 1));
  EXPECT(is_no(omi_audit(table, UINT64_MAX - 7, words, memory->count), version, RT_VERSION, 1));
  EXPECT(is_no(omi_audit(table, version + WORD, words + before + 1, memory->count - before - 1), version, RT_VERSION, 1));
  EXPECT(omi_audit(table, version, words + before, memory->count - before).yes);
}

static void tables(struct memory *memory)
{
  uint64_t *table = memory->table, start = memory->start;
  omi_judged judged = omi_judge_table(table, OMI_TABLE_WORDS - 1);
  omi_audited got = omi_audit(&judged, start, memory->words, memory->count);
  EXPECT(got.code == 7 && got.place == 0 && !got.yes && got.clause == 0);
  for (size_t place = 0; place < OMI_TABLE_WORDS; place++) {
    uint64_t before = table[place];
    table[place] = UINT64_MAX;
    judged = omi_judge_table(table, OMI_TABLE_WORDS);
    got = audited(memory);
    EXPECT(judged.code != OMI_OK && got.code == judged.code && got.place == judged.place);
    EXPECT(!got.yes && got.records == 0 && got.addr == 0 && got.field == 0 && got.clause == 0);
    table[place] = before;
  }
  EXPECT(audited(memory).yes);
}

static void field_texts(void)
{
  uint8_t text[32];
  memset(text, '.', sizeof text);
  omi_text got = omi_field_text(REGION_LEVELS, text, sizeof text);
  EXPECT(got.code == OMI_OK && got.length == strlen("region.levels") && memcmp(text, "region.levels.", 14) == 0);
  got = omi_field_text(0, text, 3);
  EXPECT(got.code == OMI_OK && got.length == strlen("layout") && memcmp(text, "layion.levels.", 14) == 0);
  got = omi_field_text(TASK_SLOTS, text, 0);
  EXPECT(got.code == OMI_OK && got.length == strlen("task.slots") && text[0] == 'l');
  for (uint32_t field = TASK_SLOTS + 1; field; field = field < 1000 ? field + 1 : field * 2) {
    got = omi_field_text(field, text, sizeof text);
    EXPECT(got.code == 3 && got.place == 0 && got.length == 0 && text[0] == 'l');
  }
}

/* The regions and tasks of each of these programs when it is stopped, as its report has them. */
static const struct { const char *name; uint64_t records; } stopped[] = {
  {"nested.core", 11}, {"later.core", 5}, {"tasks.core", 7}, {"untracked.core", 2}, {"sixty_four.core", 2}};

int main(int count, char **words)
{
  EXPECT(count == 2);
  for (size_t number = 0; number < sizeof stopped / sizeof *stopped; number++) {
    struct memory memory;
    read_core(&memory, words[1], stopped[number].name);
    omi_audited got = audited(&memory);
    EXPECT(got.code == OMI_OK && got.place == 0 && got.yes && got.records == stopped[number].records);
    EXPECT(got.addr == 0 && got.field == 0 && got.clause == 0);
    tables(&memory);
    if (number == 0) {
      clauses(&memory);
      ranges(&memory);
    }
    free(memory.words);
  }
  field_texts();
}
