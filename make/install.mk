# What is installed, and where. `make uninstall` removes these files and nothing else: folders may be others' too.
TO = $(DESTDIR)$(PREFIX)
INSTALLED_LIB = lib/libbrinepulley.a include/brinepulley.h lib/pkgconfig/brinepulley.pc
INSTALLED_COMMAND = bin/brinepulley share/man/man1/brinepulley.1

copy = $(call short,install $(TO)/$(3))install -m $(1) $(2) '$(TO)/$(3)'

define copy_lib
@install -d '$(TO)/lib/pkgconfig' '$(TO)/include'
$(call copy,644,$(ARCHIVE),lib/libbrinepulley.a)
$(call copy,644,$(HEADER),include/brinepulley.h)
$(call copy,644,$(PKGCONFIG),lib/pkgconfig/brinepulley.pc)
endef

define copy_command
@install -d '$(TO)/bin' '$(TO)/share/man/man1'
$(call copy,755,$(COMMAND),bin/brinepulley)
$(call copy,644,$(MANUAL),share/man/man1/brinepulley.1)
endef

define remove
$(call short,remove $(TO)/$(1))rm -f '$(TO)/$(1)'

endef

# All is built before the first file is copied.
install: all
	$(copy_lib)
	$(copy_command)

install-lib: lib
	$(copy_lib)

install-command: command
	$(copy_command)

uninstall:
	$(foreach file,$(INSTALLED_LIB) $(INSTALLED_COMMAND),$(call remove,$(file)))
