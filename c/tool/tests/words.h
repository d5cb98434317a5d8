/* The words that the tool publishes in this process, read as a debugger reads them: by the symbol table at
 * 0x10000 and the layout table. */
#ifndef WORDS_H
#define WORDS_H

#include <stdbool.h>
#include <stdint.h>

/* Fields by their numbers in the layout table. */
enum field {
  RT_VERSION = 1, RT_THREADS, RT_PROCS, RT_DEBUG, RT_MAXACT,
  TH_LIFE = 7, TH_NATIVE, TH_CUR, TH_STATE,
  RG_LIFE = 13, RG_FUNC, RG_ENCLOSING, RG_ENCOUNTER, RG_SIZE, RG_LEVELS, RG_ACTIVE, RG_TEAM = 24,
  TK_LIFE, TK_IMPLICIT, TK_REGION, TK_THREAD, TK_NUMBER, TK_GENERATING, TK_SCHEDULING, TK_FUNC, TK_EXIT,
  TK_ENTER, TK_DYN, TK_NTHN, TK_SCHED, TK_DEVICE, TK_FINAL, TK_TOOL, TK_NTH = 43, TK_SLOTS
};
enum { GROUP_PLACE = 4, OPEN_PLACE };

/* Whether there is anything to read: no symbols stand in a process of which nothing is shown. */
bool is_shown(void);

/* A field of a record, at a place of it. */
uint64_t word_of(uint64_t record, enum field field, unsigned place);
static inline uint64_t get(uint64_t record, enum field field)
{
  return word_of(record, field, 0);
}

/* The runtime's record; that of the thread with a native id; the calling thread's; and its current task. */
uint64_t runtime_record(void);
uint64_t thread_of(uint64_t native);
uint64_t this_thread(void);
uint64_t this_task(void);
uint64_t region_of(uint64_t task);

/* How many records are live, and how many threads have one. */
unsigned live_regions(void);
unsigned live_tasks(void);
unsigned shown_threads(void);

/* Compares all that the words say of the calling thread with what OpenMP's calls answer there, while its own
 * code runs. Ends the program where something differs. */
#define EXPECT_TRUTH() expect_truth(__FILE__, __LINE__)
void expect_truth(const char *file, int line);

/* Ends the program, whichever thread calls, where a condition doesn't hold. */
#define EXPECT(condition) ((condition) ? (void)0 : fail_test(__FILE__, __LINE__, #condition))
_Noreturn void fail_test(const char *file, int line, const char *condition);

#endif
