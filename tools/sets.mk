# make -f tools/sets.mk -j 4 TEXT=design.smv
#
# The sets of all cases of TEXT, four at a time, as files of a folder (design.sets), and the document that is made of them (design.proof). With -k it goes on where a case is false or unknown.
# Ended and begun again it does what is not done yet. See tools/sets.sh for SMV_LOOK and SETS_WORDS.
FOLDER ?= $(TEXT:.smv=.sets)
TOOLS := $(dir $(lastword $(MAKEFILE_LIST)))
SETS := $(patsubst %,$(FOLDER)/%.set,$(shell seq $$($(TOOLS)sets.sh list $(TEXT) $(FOLDER))))

$(TEXT:.smv=.proof): $(SETS)
	@$(TOOLS)sets.sh join $(TEXT) $(FOLDER) > $@.part
	@mv $@.part $@

$(FOLDER)/%.set: $(TEXT)
	@$(TOOLS)sets.sh one $(TEXT) $(FOLDER) $*
