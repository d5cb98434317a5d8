/* One asking of each call that takes a place in a target, for the tests that run all of them. */
#ifndef TRIALS_H
#define TRIALS_H

#include "library.h"

/* The number of the last control variable. */
enum { LAST_ICV = 20 };

/* What the calls are asked about. */
struct place {
  ompd_address_space_context_t *context;
  ompd_address_space_handle_t *space;
  ompd_thread_handle_t *thread;
  ompd_parallel_handle_t *region;
  ompd_task_handle_t *task;
  uint64_t native;
  int member;
  ompd_word_t state;
  ompd_icv_id_t icv;
};

/* What they answer, each into fields of its own. */
struct answer {
  ompd_address_space_handle_t *space;
  ompd_thread_handle_t *thread;
  ompd_parallel_handle_t *region;
  ompd_task_handle_t *task;
  const char *text;
  const char *const *list;
  ompd_word_t word, more;
  ompd_wait_id_t wait;
  uint64_t native;
  ompd_icv_id_t icv;
  ompd_address_t address;
  ompd_frame_info_t exits, enters;
  ompd_scope_t scope;
  int number;
};

struct trial {
  const char *name;
  ompd_rc_t (*ask)(const struct place *at, struct answer *got);
};
extern const struct trial trials[];
extern const size_t trial_count;

/* The cores of stopped programs that all trials are made over. */
extern const char *const cores[];
extern const size_t core_count;

/* Fills all fields with what no call answers, and tells whether they are still so. */
void clear_answer(struct answer *got);
bool is_clear(const struct answer *got);

/* Gives back what was made, and clears all fields. */
void undo(struct answer *got);

/* What a call answers whose callback has failed with a code. */
ompd_rc_t answer_to(enum callback failed, ompd_rc_t with);

/* The place of a thread's current task. Whether there is one. Its handles are let go by leave. */
bool enter(struct place *at, struct target *target, ompd_address_space_handle_t *space, uint64_t native);
void leave(struct place *at);

#endif
