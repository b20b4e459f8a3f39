# The rules of farm, to be included by the Makefile here, or by itself: make -f c/farm.mk
#   farm-all    proves the library where needed, and builds c/farm
#   farm-test   tries the reader, the tool, its pictures and imports, built with the sanitizers
#   farm-clean
# AMD and CHOLMOD (of SuiteSparse) and METIS are used if they are found; WITHOUT_AMD=1, WITHOUT_METIS=1, WITHOUT_CHOLMOD=1
# leave them out; FARM_EXTRA= takes further flags for the search and the link, such as -I and -L.
FARM := $(dir $(lastword $(MAKEFILE_LIST)))
FARM_ROOT := $(FARM)../
FARM_MACHINE := $(shell uname -m)
FARM_ARCHIVES := $(FARM_ROOT)target/staticlib/libc_api.a $(FARM_ROOT)target/staticlib/libsolver.a
FARM_LIBRARY := $(FARM_ARCHIVES)
ifeq ($(FARM_MACHINE),x86_64)
FARM_CC := gcc
else ifdef FARM_OWN
# Included by the Makefile here, which has a library for this machine.
FARM_CC := $(CC)
FARM_LIBRARY := $(FARM_OWN)
else
FARM_CC := x86_64-linux-gnu-gcc
FARM_LDFLAGS := -static
endif
FARM_CFLAGS := -std=c11 -O2 -Wall -Wextra -Wpedantic
FARM_SANITIZE := -std=c11 -g -O1 -Wall -Wextra -Wpedantic -fsanitize=address,undefined -fno-sanitize-recover=all
FARM_SOURCE := $(addprefix $(FARM),farm.c matrix_market.c cholmod_analysis.c picture_tree.c picture_room.c picture_fill.c svg.c)
FARM_NEEDS := $(FARM_SOURCE) $(addprefix $(FARM),matrix_market.h cholmod_analysis.h pictures.h svg.h farm.mk) $(FARM_ROOT)include/loomsaffron.h

# What to link with, if pkg-config knows it or a small program with the header can be linked; else nothing.
# $(call farm-find,PKG-CONFIG NAME,HEADER,A CALL,FLAGS TO TRY)
farm-find = $(shell for flags in "$$(pkg-config --cflags --libs $1 2>/dev/null)" "$4"; do \
  [ -n "$$flags" ] && printf '\043include <%s>\nint main(void) { return (int)(%s != 0); }\n' '$2' '$3' | \
  $(FARM_CC) -x c - -o /dev/null $(FARM_LDFLAGS) $(FARM_EXTRA) $$flags 2>/dev/null && { echo "$$flags"; break; }; done)
ifndef WITHOUT_AMD
FARM_AMD := $(call farm-find,AMD,amd.h,amd_order,-I/usr/include/suitesparse -lamd)
endif
ifndef WITHOUT_METIS
FARM_METIS := $(call farm-find,metis,metis.h,METIS_NodeND,-lmetis)
endif
ifndef WITHOUT_CHOLMOD
FARM_CHOLMOD := $(call farm-find,CHOLMOD,cholmod.h,cholmod_analyze_p,-I/usr/include/suitesparse -lcholmod)
endif
FARM_ORDERS := $(if $(FARM_AMD),-DFARM_AMD) $(if $(FARM_METIS),-DFARM_METIS) $(if $(FARM_CHOLMOD),-DFARM_CHOLMOD)
FARM_LINK := $(FARM_LIBRARY) $(FARM_LDFLAGS) $(FARM_EXTRA) $(FARM_CHOLMOD) $(FARM_AMD) $(FARM_METIS)

farm-all: $(FARM)farm
# The sanitizers are not for the other machine's code: there, only the reader is tried.
farm-test: $(if $(FARM_LDFLAGS),,$(FARM)farm-tried)
	python3 $(FARM)test_matrix_market.py $^
	$(if $^,python3 $(FARM)test_show_import.py $^ $(if $(FARM_CHOLMOD),-DFARM_CHOLMOD $(FARM_EXTRA) $(FARM_CHOLMOD)))
farm-clean:
	rm -f $(FARM)farm $(FARM)farm-tried

$(FARM)farm: $(FARM_NEEDS) $(FARM_LIBRARY)
	$(FARM_CC) $(FARM_CFLAGS) $(FARM_ORDERS) -o $@ $(FARM_SOURCE) $(FARM_LINK)

$(FARM)farm-tried: $(FARM_NEEDS) $(FARM_LIBRARY)
	$(FARM_CC) $(FARM_SANITIZE) $(FARM_ORDERS) -o $@ $(FARM_SOURCE) $(FARM_LINK)

$(FARM_ARCHIVES): $(FARM_ROOT)target/staticlib/lib%.a: $(wildcard $(FARM_ROOT)crates/*/src/*.rt)
	$(FARM)archive.sh $*

.PHONY: farm-all farm-test farm-clean
