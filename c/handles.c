/* Handles: making, releasing and comparing them.
 *
 * A handle is a token, and no address of anything that it stands for: the number of a place, and how often
 * that place was given. So no handle is given twice, and one that is over is told from each other one. The
 * places are the library's own memory, which is never given back. */
#include "adapter.h"

#include <string.h>

enum { MOST_PLACES = 1 << 16, PLACE_BYTES = 64, SERIAL_BITS = 22, MOST_SERIAL = (1 << SERIAL_BITS) - 1 };

/* No handle is of this scope, so it is the kind at a place that isn't given. */
#define RELEASED 0

/* A place is given for an object in an address space, which is there as long as the handle of the space, or
 * for an address space, which is there until it is released or its session ends. */
struct place {
  _Alignas(PLACE_BYTES) ompd_scope_t kind;
  uint32_t serial;
  const void *space_handle;
  omi_object object;
  const struct space *space;
  uint64_t session;
  struct place *next_free;
};
_Static_assert(sizeof(struct place) == PLACE_BYTES, "the number of a place is its address by its size");
_Static_assert(sizeof(void *) == sizeof(uint64_t), "a token has room for two numbers");

static struct place places[MOST_PLACES];
static struct place *free_places;
static size_t places_begun;

/* Two libraries that are loaded at once have no place of one number. */
static uint64_t number_of(const struct place *place)
{
  return (uintptr_t)place / PLACE_BYTES;
}

static void *token_of(const struct place *place)
{
  return (void *)(uintptr_t)(number_of(place) << SERIAL_BITS | place->serial);
}

/* The place of a handle of a kind that wasn't released. NULL where it was, or is none of the kind. */
static struct place *place_of(const void *handle, ompd_scope_t kind)
{
  uint64_t token = (uintptr_t)handle;
  uint64_t index = (token >> SERIAL_BITS) - number_of(places);
  struct place *place = index < MOST_PLACES ? places + index : NULL;
  return place && place->kind == kind && place->serial == (token & MOST_SERIAL) ? place : NULL;
}

/* The address space of what stands at a place. NULL where it was released, or its session ended. */
static const struct space *space_of(const struct place *place)
{
  const struct place *of = place_of(place->space_handle, ompd_scope_address_space);
  return of && debugger && of->session == sessions ? of->space : NULL;
}

ompd_rc_t no_handle(void)
{
  return sessions ? ompd_rc_stale_handle : ompd_rc_bad_input;
}

ompd_rc_t resolve(const void *handle, ompd_scope_t kind, bool others, struct handle *of)
{
  const struct place *place = place_of(handle, kind);
  const struct space *space = place ? space_of(place) : NULL;
  if (!space)
    return no_handle();
  *of = (struct handle){space, place->space_handle, place->object};
  return others ? ompd_rc_ok : ompd_rc_bad_input;
}

/* A place that isn't given. Where all are, one whose space is gone, though nobody released the handle. */
static struct place *find_place(void)
{
  struct place *place = free_places;
  if (place) {
    free_places = place->next_free;
    return place;
  }
  if (places_begun < MOST_PLACES)
    return places + places_begun++;
  for (size_t index = 0; index < MOST_PLACES; index++)
    if (places[index].kind != RELEASED && places[index].serial < MOST_SERIAL && !space_of(places + index))
      return places + index;
  return NULL;
}

static struct place *give_place(ompd_scope_t kind)
{
  struct place *place = find_place();
  if (place) {
    place->kind = kind;
    place->serial++;
  }
  return place;
}

/* A place that has no further serial number isn't given again. */
static void release_place(struct place *place)
{
  place->kind = RELEASED;
  if (place->serial < MOST_SERIAL) {
    place->next_free = free_places;
    free_places = place;
  }
}

/* Pointers to structures look alike, whichever handle they are of. */
ompd_rc_t make_handle(const struct handle *from, ompd_scope_t kind, omi_object object, void *to)
{
  struct place *place = give_place(kind);
  if (!place)
    return ompd_rc_nomem;
  place->space_handle = from->space_handle;
  place->object = object;
  memcpy(to, &(void *){token_of(place)}, sizeof(void *));
  return ompd_rc_ok;
}

ompd_rc_t make_space_handle(const struct space *space, ompd_address_space_handle_t **to)
{
  struct place *place = give_place(ompd_scope_address_space);
  if (!place) {
    give_back(space);
    return ompd_rc_nomem;
  }
  place->space_handle = token_of(place);
  place->space = space;
  place->session = sessions;
  *to = token_of(place);
  return ompd_rc_ok;
}

/* A handle whose space is gone is released as each other one. */
static ompd_rc_t release(const void *handle, ompd_scope_t kind)
{
  ENTER;
  struct place *place = place_of(handle, kind);
  if (!place)
    return no_handle();
  const struct space *space = kind == ompd_scope_address_space ? space_of(place) : NULL;
  release_place(place);
  return space ? give_back(space) : ompd_rc_ok;
}

#define RELEASES(kind, call) \
  ompd_rc_t call(ompd_##kind##_handle_t *handle) { return release(handle, ompd_scope_##kind); }

RELEASES(address_space, ompd_rel_address_space_handle)
RELEASES(thread, ompd_rel_thread_handle)
RELEASES(parallel, ompd_rel_parallel_handle)
RELEASES(task, ompd_rel_task_handle)

/* Handles of two address spaces have no order. */
static ompd_rc_t compare(const void *one, const void *other, ompd_scope_t kind, int *value)
{
  ENTER;
  struct handle a, b;
  ompd_rc_t rc = resolve(one, kind, true, &a);
  if (rc == ompd_rc_ok)
    rc = resolve(other, kind, value, &b);
  if (rc != ompd_rc_ok)
    return rc;
  if (a.space != b.space)
    return ompd_rc_stale_handle;
  *value = omi_compare(a.object, b.object);
  return ompd_rc_ok;
}

#define COMPARES(kind) \
  ompd_rc_t ompd_##kind##_handle_compare(ompd_##kind##_handle_t *a, ompd_##kind##_handle_t *b, int *value) \
  { \
    return compare(a, b, ompd_scope_##kind, value); \
  }

COMPARES(thread)
COMPARES(parallel)
COMPARES(task)
