# What judges the tool, and a program that takes snapshots: a part of the Makefile.
#
#   make judge      the proved audit judges 5,000,000 stores of busy and 3,000,000 of edge, by each compiler, and those of a run of unrelated and parts
#   make truth      1,000 stops, by each compiler, of programs whose threads say what they know of themselves
#   make wrong      each edit in tests/wrong makes a wrong tool, which has to be seen by one of these

SAYING := tests/truth.c tests/speaking.c
COMPARING := tests/stops.c tests/comparing.c tests/process.c stopped.c ../tests/library.c ../tests/target.c
SAID_HEADERS := $(wildcard tests/*.h) stopped.h
PLAIN_FLAGS := -std=c11 -Wall -Wextra -Werror -O2 -g
LIBOMPD := ../out/libompd.so

all: $(OUT)/omi_snapshot

$(OUT)/omi_snapshot: snapshot.c stopped.c stopped.h
	mkdir -p $(OUT)
	$(CC) $(PLAIN_FLAGS) -o $@ snapshot.c stopped.c

$(OUT)/stops: $(COMPARING) $(SAID_HEADERS)
	mkdir -p $(OUT)
	$(CC) $(PLAIN_FLAGS) -I.. -o $@ $(COMPARING) -ldl

$(OUT)/tests/truth.clang: $(SAYING) $(SAID_HEADERS)
	mkdir -p $(OUT)/tests
	$(CLANG) $(PLAIN_FLAGS) -fopenmp -o $@ $(SAYING) -lpthread

$(OUT)/tests/truth.gcc: $(SAYING) $(SAID_HEADERS)
	mkdir -p $(OUT)/tests
	$(GCC) $(PLAIN_FLAGS) -fopenmp -o $@ $(SAYING) -lpthread

$(LIBOMPD): $(OMI_C)
	$(MAKE) -C .. out/libompd.so

JUDGED := $(OUT)/libomi_check.so $(OUT)/gomp/libgomp.so.1 $(foreach compiler,$(COMPILERS),$(patsubst %,$(OUT)/tests/%.$(compiler),busy edge unrelated parts))
COMPARED := $(OUT)/libomi_tool.so $(OUT)/gomp/libgomp.so.1 $(OUT)/stops $(LIBOMPD) $(foreach compiler,$(COMPILERS),$(OUT)/tests/truth.$(compiler))
GOMP := LD_LIBRARY_PATH=$(OUT)/gomp

# judged STORES-OF-BUSY SECONDS-OF-BUSY STORES-OF-EDGE and compared STOPS, by all compilers
judged = $(foreach compiler,$(COMPILERS),$(GOMP) tests/judge $(OUT)/libomi_check.so $(1) $(OUT)/tests/busy.$(compiler) $(2) &&) \
  $(foreach compiler,$(COMPILERS),$(GOMP) OMP_CANCELLATION=true tests/judge $(OUT)/libomi_check.so $(3) $(OUT)/tests/edge.$(compiler) &&) true
untied = $(foreach program,unrelated parts,$(foreach compiler,$(COMPILERS), \
  $(GOMP) tests/judge $(OUT)/libomi_check.so 1 $(OUT)/tests/$(program).$(compiler) $(1) &&)) true
compared = $(foreach compiler,$(COMPILERS),$(GOMP) $(OUT)/stops $(LIBOMPD) $(OUT)/libomi_tool.so $(1) $(OUT)/tests/truth.$(compiler) &&) true

judge: $(JUDGED)
	$(call judged,5000000,10,3000000)
	$(call untied,30)

truth: $(COMPARED)
	$(call compared,1000)

wrong: $(JUDGED) $(COMPARED)
	tests/wrong_tools $(OUT)

# The share of `make test`.
judge-some: $(JUDGED)
	$(call judged,200000,2,200000)
	$(call untied,2)

truth-some: $(COMPARED)
	$(call compared,40)

.PHONY: judge truth wrong judge-some truth-some
