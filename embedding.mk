# Where the archive of the C library is made: that of crates/kalzurenk_c, with the three functions of the kit by which
# it takes memory and gives it back. A file that includes this sets TOP to the repository's top.

KIT = $(patsubst %/,%,$(dir $(shell rt doc)))
CRATE := $(TOP)/crates/kalzurenk_c
ARCHIVE := $(CRATE)/out/libkalzurenk.a

# What isn't proved isn't built.
$(CRATE)/out/libkalzurenk_c.a: $(wildcard $(TOP)/crates/*/src/*.rt $(CRATE)/src/*/*.rt)
	cd $(CRATE) && rt lib
	touch $@

$(ARCHIVE): $(CRATE)/out/libkalzurenk_c.a
	rm -f $@
	printf 'create $@\naddlib $<\naddlib $(KIT)/c/liblibc_c.a\nsave\nend\n' | ar -M
