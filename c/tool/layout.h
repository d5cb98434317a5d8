/* The layout, version 2: where each field stands in its record, in words. Fields that one thread stores
 * together share a line of the cache, and no two threads' records do. */
#ifndef LAYOUT_H
#define LAYOUT_H

enum { WORD_BYTES = 8, LINE_WORDS = 8 };

/* The symbol table's address, its entries, and the words of a name. */
enum { FRONT = 0x10000, SYMBOLS = 8, NAME_WORDS = 4, SYMBOL_WORDS = NAME_WORDS + 1 };

enum { LAYOUT_VERSION = 2, TABLE_WORDS = 56, TABLE_HEAD = 12, FIELDS = TABLE_WORDS - TABLE_HEAD };

enum { MOST_THREADS = 64, REGIONS_EACH = 16, MOST_TASKS_EACH = 4096 };

/* As many words has a core at most. */
enum { CORE_WORDS = 1 << 20 };

/* The greatest levels-var, active-levels-var and max-active-levels-var. */
enum { MOST_LEVELS = 255 };

/* Elements of nthreads-var in a record, and open task groups. */
enum { MOST_SIZES = 4, MOST_GROUPS = 4 };

enum { RT_VERSION, RT_THREADS, RT_PROCS, RT_DEBUG, RT_MAXACT, RT_LOCKS, RUNTIME_WORDS = 16 };

/* The current task and the state are one pair of words. */
enum { TH_LIFE, TH_NATIVE, TH_CUR, TH_STATE, TH_CLAIM, TH_ASSIGN, THREAD_WORDS = LINE_WORDS };
_Static_assert(TH_CUR % 2 == 0 && TH_STATE == TH_CUR + 1 && THREAD_WORDS % 2 == 0 && RUNTIME_WORDS % 2 == 0, "a pair");

enum {
  RG_LIFE, RG_FUNC, RG_ENCLOSING, RG_ENCOUNTER, RG_SIZE, RG_LEVELS, RG_ACTIVE,
  RG_RELEASED, RG_ARRIVED, RG_PENDING, RG_LEFT, RG_TEAM = 2 * LINE_WORDS,
  REGION_WORDS = RG_TEAM + MOST_THREADS
};

/* The first line is stored by the thread that takes the record, the second by the one that runs the task. */
enum {
  TK_LIFE, TK_IMPLICIT, TK_REGION, TK_NUMBER, TK_GENERATING, TK_FUNC, TK_FINAL, TK_TOOL,
  TK_THREAD, TK_SCHEDULING, TK_EXIT, TK_ENTER, TK_DYN, TK_NTHN, TK_SCHED, TK_DEVICE,
  TK_NTH, TK_SLOTS = TK_NTH + MOST_SIZES,
  TK_GROUP = TK_SLOTS + 4, TK_OPEN, TK_CHILDREN = TK_SLOTS + 10, TK_REFS, TASK_WORDS
};

#endif
