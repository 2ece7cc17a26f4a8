# SPDX-License-Identifier: Apache-2.0
# The library and the program seal_file, by dist/Makefile, whose first comment says what each goal and each variable means.
goals := all check test install uninstall clean seal_file install-seal_file uninstall-seal_file
.PHONY: $(goals)
$(goals):
	@$(MAKE) --no-print-directory -C dist $@
