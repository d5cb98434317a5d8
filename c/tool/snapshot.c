/* Writes the records of a running process as an ELF core that `ompdi` reads: omi_snapshot PID CORE. The process is stopped meanwhile, for some
 * milliseconds. It has to be loaded with libomi_tool.so, and this program may have to run as its owner or its parent. */
#include "stopped.h"

#include <elf.h>
#include <inttypes.h>
#include <stdio.h>
#include <stdlib.h>
#include <string.h>

enum { FRONT = 0x10000, SYMBOL_WORDS = 5, MOST_SYMBOLS = 16, TABLE_WORDS = 56, WORD = sizeof(uint64_t), MOST_IDS = 64 };

/* Words of the layout table. */
enum { RT_PLACE = 1, THREAD_PLACE = 3, REGION_PLACE = 6, TASK_PLACE = 9, OFFSETS = 11 };

/* Fields by their numbers. */
enum { THREAD_LIFE = 7, THREAD_NATIVE };

/* A run of words of the process. */
struct run {
  uint64_t start, words;
  uint64_t *copy;
};
enum { MOST_RUNS = 6 };

struct snapshot {
  uint64_t table[TABLE_WORDS];
  size_t runs, ids;
  struct run run[MOST_RUNS];
  uint64_t id[MOST_IDS];
};

static _Noreturn void fail(const char *why)
{
  fprintf(stderr, "omi_snapshot: %s\n", why);
  exit(1);
}

static void add_run(struct snapshot *snapshot, uint64_t start, uint64_t words)
{
  snapshot->run[snapshot->runs++] = (struct run){start, words, NULL};
}

/* The symbols, the layout table, and the four arenas that it names. */
static void find_runs(struct snapshot *snapshot, pid_t process)
{
  uint64_t symbols, place = published_symbol(process, "omi_layout");
  const uint64_t *table = snapshot->table;
  if (!read_words(process, FRONT, &symbols, 1) || symbols > MOST_SYMBOLS || !read_words(process, place, snapshot->table, TABLE_WORDS))
    fail("the process publishes no records at 0x10000");
  uint64_t threads = table[THREAD_PLACE + 2];
  add_run(snapshot, FRONT, 1 + SYMBOL_WORDS * symbols);
  add_run(snapshot, place, TABLE_WORDS);
  add_run(snapshot, table[RT_PLACE], table[RT_PLACE + 1]);
  add_run(snapshot, table[THREAD_PLACE], table[THREAD_PLACE + 1] * threads);
  add_run(snapshot, table[REGION_PLACE], table[REGION_PLACE + 1] * table[REGION_PLACE + 2] * threads);
  add_run(snapshot, table[TASK_PLACE], table[TASK_PLACE + 1] * table[TASK_PLACE + 2] * threads);
}

static void copy_runs(struct snapshot *snapshot, pid_t process)
{
  for (struct run *run = snapshot->run; run < snapshot->run + snapshot->runs; run++) {
    run->copy = run->words < 1 << 20 ? malloc(run->words * WORD) : NULL;
    if (!run->copy || !read_words(process, run->start, run->copy, run->words))
      fail("the records can't be read");
  }
}

static int by_value(const void *a, const void *b)
{
  uint64_t x = *(const uint64_t *)a, y = *(const uint64_t *)b;
  return x < y ? -1 : x > y;
}

/* The native ids of the threads that have begun, each once, in rising order. */
static void find_ids(struct snapshot *snapshot)
{
  const uint64_t *table = snapshot->table, *threads = snapshot->run[3].copy;
  uint64_t found[MOST_IDS];
  size_t begun = 0;
  for (uint64_t thread = 0; thread < table[THREAD_PLACE + 2] && thread < MOST_IDS; thread++) {
    const uint64_t *record = threads + thread * table[THREAD_PLACE + 1];
    if (record[table[OFFSETS + THREAD_LIFE]] == 1)
      found[begun++] = record[table[OFFSETS + THREAD_NATIVE]];
  }
  qsort(found, begun, sizeof *found, by_value);
  for (size_t number = 0; number < begun; number++)
    if (number == 0 || found[number] != found[number - 1])
      snapshot->id[snapshot->ids++] = found[number];
}

static int by_start(const void *a, const void *b)
{
  return by_value(&((const struct run *)a)->start, &((const struct run *)b)->start);
}

/* The note `OMPD`, whose name is padded to a multiple of four bytes. */
struct note {
  Elf64_Nhdr head;
  char name[8];
};

static bool write_core(const struct snapshot *snapshot, FILE *core)
{
  struct note note = {{5, (uint32_t)(snapshot->ids * WORD), 1}, "OMPD"};
  size_t headers = 1 + snapshot->runs;
  Elf64_Off place = sizeof(Elf64_Ehdr) + headers * sizeof(Elf64_Phdr);
  Elf64_Ehdr head = {
    .e_ident = {ELFMAG0, ELFMAG1, ELFMAG2, ELFMAG3, ELFCLASS64, ELFDATA2LSB, EV_CURRENT}, .e_type = ET_CORE, .e_machine = EM_X86_64,
    .e_version = EV_CURRENT, .e_phoff = sizeof head, .e_ehsize = sizeof head, .e_phentsize = sizeof(Elf64_Phdr),
    .e_phnum = (Elf64_Half)headers};
  Elf64_Phdr noted = {.p_type = PT_NOTE, .p_flags = PF_R, .p_offset = place, .p_filesz = sizeof note + note.head.n_descsz, .p_align = 4};
  fwrite(&head, sizeof head, 1, core);
  fwrite(&noted, sizeof noted, 1, core);
  place += noted.p_filesz;
  for (size_t number = 0; number < snapshot->runs; number++) {
    const struct run *run = snapshot->run + number;
    Elf64_Phdr loaded = {
      .p_type = PT_LOAD, .p_flags = PF_R | PF_W, .p_offset = place, .p_vaddr = run->start, .p_filesz = run->words * WORD,
      .p_memsz = run->words * WORD, .p_align = WORD};
    fwrite(&loaded, sizeof loaded, 1, core);
    place += loaded.p_filesz;
  }
  fwrite(&note, sizeof note, 1, core);
  fwrite(snapshot->id, WORD, snapshot->ids, core);
  for (size_t number = 0; number < snapshot->runs; number++)
    fwrite(snapshot->run[number].copy, WORD, snapshot->run[number].words, core);
  return !ferror(core);
}

int main(int count, char **words)
{
  static struct stopped stopped;
  static struct snapshot snapshot;
  if (count != 3) {
    fprintf(stderr, "usage: omi_snapshot PID CORE\n");
    return 2;
  }
  pid_t process = atoi(words[1]);
  if (!stop_process(&stopped, process))
    fail("the process can't be stopped");
  find_runs(&snapshot, process);
  copy_runs(&snapshot, process);
  let_go(&stopped);
  find_ids(&snapshot);
  qsort(snapshot.run, snapshot.runs, sizeof *snapshot.run, by_start);
  FILE *core = fopen(words[2], "wb");
  if (!core || !write_core(&snapshot, core) || fclose(core))
    fail("the core can't be written");
}
