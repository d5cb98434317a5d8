/* Records: which are free, what the tool keeps of each beside its words, and how long an explicit task's lives.
 *
 * Only the thread that a record belongs to takes it, any thread gives it back, and between the two one thread
 * at a time stores in it. A region lives from its fork to the end of it, and so do its implicit tasks. An
 * explicit task takes a record as it starts, and keeps it while it has not ended and while a task that it made
 * has not. So each address that a debugger can reach is that of a live record. */
#ifndef RECORDS_H
#define RECORDS_H

#include <omp-tools.h>

#include "arenas.h"

/* Of a task. They have a line of the cache. */
struct task_notes {
  _Alignas(64) long made; /* tasks that it made */
  _Atomic long owed; /* minus those of them that have ended; and once it has ended itself, plus all of them */
  const ompt_frame_t *frame; /* where the runtime keeps the task's frames, once it has told that */
  _Atomic uint64_t below; /* the task that its thread ran, where it was started or resumed */
  _Atomic uint16_t state_below; /* the thread's state there, which is none with a wait id */
  uint16_t state_of_work; /* that of its thread while the task's own code runs */
  unsigned passed; /* tasks without a record that stand on this one */
  _Atomic unsigned changes; /* calls that set a control variable of it, seen by setters.c */
  unsigned deeper_groups; /* open ones behind the fourth */
  bool asked; /* its control variables are those of the runtime */
  bool suspended; /* it waits to be resumed */
  bool detached; /* its code has ended, and its event was not fulfilled */
  _Atomic bool resumed; /* it was suspended before: see `take_off_left` */
  _Atomic uint8_t users; /* of a resumed one: the runtime, which is to tell its end, and the thread it lies on */
  unsigned next_free; /* of a record that was given back */
};
_Static_assert(sizeof(struct task_notes) == 64, "a line of the cache");

struct region_notes {
  unsigned next_free;
  unsigned made; /* members' tasks */
  unsigned passed; /* regions without a record that the thread forked behind this one */
  bool is_initial; /* of an initial thread: nobody forked it */
  bool is_league; /* of a teams construct: its members are initial tasks */
  word_t *before; /* the region that the thread forked before, and which has not ended */
};

/* The free records of one kind that belong to a thread. */
struct pool {
  unsigned own; /* the first of those that it gave back itself */
  unsigned unused; /* those from here on were never taken */
  _Atomic unsigned returned; /* the first of those that others gave back */
};

/* What the tool keeps of a thread's record. One thread at a time has it. */
struct thread {
  _Alignas(64) word_t *record;
  unsigned index;
  struct pool tasks, regions;
  word_t *forked; /* the last region that it forked and which has not ended */
  unsigned passed_regions, passed_tasks; /* those in front of the first that has a record */
  bool resumes; /* it has resumed a task */
  _Atomic bool taken;
};

/* The calling thread's, or NULL where it has no record. */
extern HIDDEN _Thread_local struct thread *self __attribute__((tls_model("initial-exec")));

/* The calling thread's, or NULL where nothing of it is shown. */
static inline struct thread *shown_thread(void)
{
  return self && is_published() ? self : NULL;
}

/* Gives the calling thread a record. Whether there was one. */
bool take_thread(void);
void give_back_thread(void);

static inline word_t *current_task(const struct thread *me)
{
  return record_at(load(me->record + TH_CUR));
}

/* A thread's current task and its state. */
static inline union pair shown_by(word_t *thread)
{
  return (union pair){{load(thread + TH_CUR), load(thread + TH_STATE)}};
}

enum { MOST_TASKS = CORE_WORDS / TASK_WORDS };
extern HIDDEN struct task_notes task_notes[MOST_TASKS];
extern HIDDEN struct region_notes region_notes[MOST_THREADS * REGIONS_EACH];

/* A task by the place of its record among all of them. */
static inline size_t place_of_task(const word_t *task)
{
  return (size_t)(task - arenas.tasks) / TASK_WORDS;
}

static inline word_t *task_at(size_t place)
{
  return arenas.tasks + place * TASK_WORDS;
}

static inline struct task_notes *notes_of_task(const word_t *task)
{
  return &task_notes[place_of_task(task)];
}

static inline unsigned place_of_region(const word_t *region)
{
  return (unsigned)((size_t)(region - arenas.regions) / REGION_WORDS);
}

static inline struct region_notes *notes_of_region(const word_t *region)
{
  return &region_notes[place_of_region(region)];
}

/* How many tasks without a record stand on this thread's current task, and how many regions without one it has
 * forked behind its last region. A task or region without a record is passed over: it is not shown, and the
 * last one that has a record stands for it. As begin and end are nested in a thread, to count them is enough. */
static inline unsigned *tasks_passed(struct thread *me)
{
  word_t *task = current_task(me);
  return task ? &notes_of_task(task)->passed : &me->passed_tasks;
}

static inline unsigned *regions_passed(struct thread *me)
{
  return me->forked ? &notes_of_region(me->forked)->passed : &me->passed_regions;
}

/* The current task where it is the one that runs, and else NULL: there is none, or one without a record stands
 * on it. */
static inline word_t *running_task(const struct thread *me)
{
  word_t *task = current_task(me);
  return task && !notes_of_task(task)->passed ? task : NULL;
}

/* A live record, or NULL where there is no free one: then that is counted, and said once. */
word_t *take_task(struct thread *me);
word_t *take_region(struct thread *me);

/* `me` is NULL for a thread without a record. */
void give_back_task(struct thread *me, word_t *task);
void give_back_region(struct thread *me, word_t *region);

/* An explicit task is given back once it and all that it made have ended. To make one costs no more than to count
 * it, and a task whose tasks have all ended before it is given back without a change that others see. */

/* The task that runs here makes another one. */
static inline void hold_task(struct task_notes *maker)
{
  maker->made++;
}

/* A task that this one made has ended, or will never start. */
void release_maker(struct thread *me, word_t *maker);

/* An explicit task has ended. */
void release_task(struct thread *me, word_t *task);

/* One more that is not shown: says so once, and what to do about it. */
enum kind { THREADS, REGIONS, TASKS, KINDS };
void count_unshown(enum kind kind);

/* Says how many were not shown, and how many records are live. */
void say_counts(void);

/* Forgets all records, in a process that was just forked. */
void forget_records(void);

#endif
