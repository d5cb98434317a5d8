/* The words of a target, and how an inquiry is asked again until it knows all that it needs. */
#include "adapter.h"

/* Whether a code of read_memory says that nothing is mapped at the address. */
static bool says_unmapped(ompd_rc_t rc)
{
  return rc == ompd_rc_unavailable || rc == ompd_rc_error;
}

ompd_rc_t read_word(const struct space *space, uint64_t address, omi_known *known)
{
  *known = (omi_known){.addr = address};
  if (address % WORD_BYTES)
    return ompd_rc_ok; /* no word stands there */
  ompd_address_t at = {space->segment, address};
  unsigned char bytes[WORD_BYTES];
  ompd_rc_t rc = debugger->read_memory(space->context, NULL, &at, sizeof bytes, bytes);
  if (says_unmapped(rc))
    return ompd_rc_ok;
  if (rc != ompd_rc_ok)
    return rc;
  known->mapped = true;
  return debugger->device_to_host(space->context, bytes, sizeof bytes, 1, &known->word);
}

/* The return code for a code of the proved library. */
static ompd_rc_t own_code(uint32_t code)
{
  return code <= ompd_rc_incomplete ? (ompd_rc_t)code : ompd_rc_error;
}

ompd_rc_t code_of(uint32_t code)
{
  ompd_rc_t failure = memory_failure();
  return failure == ompd_rc_ok ? own_code(code) : failure;
}

static bool is_known(const struct words *words, uint64_t address)
{
  for (size_t place = 0; place < words->count; place++)
    if (words->known[place].addr == address)
      return true;
  return false;
}

/* Adds the word at an address to the known ones. What is no word's address, is known already or is one too
 * many is an error: so the asking ends. */
static ompd_rc_t learn(struct words *words, uint64_t address)
{
  if (address % WORD_BYTES || words->count == MOST_WORDS || is_known(words, address))
    return ompd_rc_error;
  ompd_rc_t rc = read_word(words->of.space, address, &words->known[words->count]);
  if (rc == ompd_rc_ok)
    words->count++;
  return rc;
}

bool needs_word(struct words *words, uint32_t code, uint64_t place)
{
  words->rc = memory_failure();
  words->answered = words->rc == ompd_rc_ok && code != OMI_NEEDS_WORD;
  if (words->answered)
    words->rc = own_code(code);
  else if (words->rc == ompd_rc_ok)
    words->rc = learn(words, place);
  return words->rc == ompd_rc_ok && !words->answered;
}
