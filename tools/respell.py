#!/usr/bin/env python3
"""Respells the definitions and lemmas of this repository, and of a change that was kept in docs/ then:
words in snake case, facts and records in camel case.

    python3 tools/respell.py [FOLDER]

It is run once, at the top of the repository or on the copy of it in FOLDER, right after the spelling of the language
itself was brought up to date. It reads the table below, and nothing else decides. A name of the table is replaced where
it stands as a whole word in a file of specs/ or proofs/, in a .rt file, or in an edit; never inside a string.
Functions of the code keep their names: none of the names on the left is one of code.
"""

import re
import sys
from pathlib import Path

NAMES = """
Amounts-bounded AmountsBounded
Chamber-passes ChamberPasses
Change-laws ChangeLaws
Drained-is-dry DrainedIsDry
Gathering-fits FeedersFit
Keeps-sound KeepsSound
Nothing-more NothingMore
One-answer OneAnswer
One-changed OneChanged
Sources-deliver SourcesDeliver
Tells-network TellsNetwork
Told-once ToldOnce
Touch-laws TouchLaws
Two-steps TwoSteps
accepted-low accepted_low
admitted-fit admitted_fit
admitted-known admitted_known
after-command after_command
all-length all_length
all-sinks all_sinks
all-sources all_sources
all-told all_told
alongReach along_reach
amounts-bounded amounts_bounded
answered-not answered_not
answered-once answered_once
answersTo answers_to
arc-changed arc_changed
arc-has arc_has
arcAt arc_at
arcIn arc_in
arcOf arc_of
arcOfRow arc_of_row
arcs-at arcs_at
arcs-inserted arcs_inserted
arcs-length arcs_length
arcs-more arcs_more
arcs-set arcs_set
arcs-used arcs_used
arcsOf arcs_of
askedAs asked_as
askedBy asked_by
at-below at_below
at-bytes at_bytes
at-record at_record
at-v at_v
base-junctions base_junctions
base-reaches base_reaches
behind-drop behind_drop
below-changed below_changed
below-done below_done
broughtBy brought_by
carries-as carries_as
carriesAny carries_any
carry-fits carry_fits
cases-twin cases_twin
chamber-enters chamber_enters
chamber-leaves chamber_leaves
chamber-passes chamber_passes
chamberAt chamber_at
chamberChecks chamber_checks
chamberIn chamber_in
chamberLines chamber_lines
chamberReach chamber_reach
chambered-many chambered_many
chambered-none chambered_none
chambered-once chambered_once
chambered-same chambered_same
chambering-sound chambering_sound
chambers-begin chambers_begin
chambersGiver chambers_giver
chambersNet chambers_net
chambersSound chambers_sound
change-laws change_laws
change-past change_past
change-there change_there
changeChecks change_checks
changed-all changed_all
changed-below changed_below
changed-bounded changed_bounded
changed-each changed_each
changed-frame changed_frame
changed-length changed_length
changed-list changed_list
changed-net changed_net
changed-own changed_own
changed-size changed_size
checks-below checks_below
checks-crowded checks_crowded
checks-late checks_late
checks-own checks_own
checks-pass checks_pass
command-more command_more
commandLines command_lines
commandOf command_of
commanded-once commanded_once
commands-counted commands_counted
commands-not commands_not
covers-from covers_from
crowded-as crowded_as
draftLines draft_lines
draftNet draft_net
drafted-once drafted_once
drained-at drained_at
drained-is-dry drained_is_dry
drainedLine drained_line
drawnFrom drawn_from
dried-all dried_all
dried-length dried_length
dried-more dried_more
driedTo dried_to
each-feeder each_feeder
each-push each_push
ends-differ ends_differ
entered-fits entered_fits
everyKind every_kind
fair-all fair_all
fair-at fair_at
fair-changed fair_changed
fair-more fair_more
fairArcs fair_arcs
fed-once fed_once
feed-once feed_once
feedAt feed_at
feedIn feed_in
feeder-at feeder_at
feeder-bounded feeder_bounded
feeder-changed feeder_changed
feeder-keeps feeder_keeps
feederLines feeder_lines
feeders-count feeders_count
feeders-fit feeders_fit
feeders-more feeders_more
feedersBy feeders_by
feedersOf feeders_of
few-sinks few_sinks
few-sources few_sources
fielded-place fielded_place
first-behind first_behind
first-in-front first_in_front
first-nowhere first_nowhere
found-fielded found_fielded
found-lettered found_lettered
found-placed found_placed
gatherChecks gather_checks
gathered-length gathered_length
gathered-many gathered_many
gathered-once gathered_once
gathered-reaches gathered_reaches
gathered-size size_of-gathered
gathered-two gathered_two
gatheredSize gathered_size
gathering-begins gathering_begins
gathering-sound gathered_sound
gatheringGiver gathering_giver
gatheringNet gathering_net
gatheringSound gathering_sound
gives-below gives_below
gives-own gives_own
gives-still gives_still
goesBack goes_back
goingOn going_on
highestLimit highest_limit
highestSetting highest_setting
holds-stated holds_stated
idle-more idle_more
in-here in_here
in-other in_other
inserted-last inserted_last
insertedIf inserted_if
intake-in intake_in
isNetwork is_network
isRefusal is_refusal
judged-as judged_as
judged-place judged_place
junctionsAfter junctions_after
junctionsBy junctions_by
junctionsDrawn junctions_drawn
keeps-chamber keeps_chamber
keeps-ends keeps_ends
keeps-sound keeps_sound
kind-spelt kind_spelt
kindAmong kind_among
laidRow laid_row
lay-accepted lay_accepted
lay-full lay_full
layChecks lay_checks
layerGiver layer_giver
leavingFrom leaving_from
left-away left_away
left-from-is left_from_is
left-more left_more
left-same left_same
leftFrom left_from
letter-among letter_among
letterOf letter_of
lettered-place lettered_place
lifted-fair lifted_fair
lifted-same lifted_same
limit-fits limit_fits
limitLine limit_line
limitOf limit_of
limited-not limited_not
lineText line_text
lines-counted lines_counted
linesFor lines_for
listed-more listed_more
locatedAt located_at
map-still map_still
map-twice map_twice
mostBytes most_bytes
mostChambers most_chambers
mostDrafted most_drafted
mostJunctions most_junctions
mostOfEach most_of_each
mostOwn most_own
mostReaches most_reaches
mostRows most_rows
moving-more moving_more
moving-none moving_none
netIn net_in
networkLine network_line
no-twin no_twin
noArc no_arc
noFeeders no_feeders
none-fit none_fit
none-yet none_yet
not-high not_high
not-refused not_refused
nothing-more nothing_more
number-back number_back
number-tells number_tells
ofRole of_role
one-changed one_changed
one-more one_more
opened-once opened_once
opened-sound opened_sound
openedLines opened_lines
or-cond or_cond
or-none none_or
orNone or_none
orSelf or_self
other-below other_below
other-feeders other_feeders
out-here out_here
out-other out_other
outOf-le out_of-le
outfall-in outfall_in
own-done own_done
own-fair own_fair
own-fit own_fit
own-length own_length
own-still own_still
ownArcs own_arcs
ownChecks own_checks
placeText place_text
placed-place placed_place
placesIn places_in
reach-past reach_past
reach-there reach_there
reachChanged reach_changed
reachChecks reach_checks
reachesBy reaches_by
reachesDrawn reaches_drawn
recordsLeft records_left
refusable-once refusable_once
refusalAt refusal_at
refusalLine refusal_line
refusalText refusal_text
refused-by refused_by
refused-once refused_once
refusedLine refused_line
rest-in rest_in
room-left room_left
roomIn room_in
rowChanged row_changed
same-change same_change
same-checks same_checks
shape-late shape_late
shapeChecks shape_checks
sink-fair sink_fair
sink-put sink_put
sinks-more sinks_more
sound-changed sound_changed
sound-from-fair sound_from_fair
source-fair source_fair
source-put source_put
sources-deliver sources_deliver
sources-more sources_more
stackGiver stack_giver
stackNet stack_net
started-once started_once
still-table still_table
subst-past subst_past
sumOf-append sum_of-append
sumOf-le sum_of-le
sumOf-more sum_of-more
sumOf-none sum_of-none
sumOf-one sum_of-one
sumOf-push sum_of-push
sumOf-same sum_of-same
sumOf-zero sum_of-zero
table-lines lines_of_table
tableGiver table_giver
tableLines table_lines
tableNet table_net
tableSound table_sound
tallyLine tally_line
tells-told tells_told
thenCommands then_commands
thenFeeders then_feeders
told-high told_high
told-low told_low
told-once told_once
told-steps told_steps
tooHigh too_high
tooLong too_long
touch-chambered touch_chambered
touch-laws touch_laws
touch-outside touch_outside
touch-twin touch_twin
twin-kept twin_kept
twin-new twin_new
twin-other twin_other
twinOf twin_of
twins-both twins_both
twins-same twins_same
twins-set twins_set
unstatedLimit unstated_limit
with-chamber chambered-with
withChamber with_chamber
withFeeder with_feeder
withReach with_reach
withReaches with_reaches
withShape with_shape
withTwo with_two
wrongName wrong_name
zero-accepted zero_accepted
zero-not-refused zero_not_refused
"""

# What ends a name in a clause or a proof. (A hyphen and an underscore are letters of names.)
WORD = re.compile(r'"[^"\n]*"|[^\s(){}\[\].,;:"\u231c\u231d]+')


def respelt(text, new):
    return WORD.sub(lambda m: new.get(m.group(0), m.group(0)), text)


def main():
    top = Path(sys.argv[1]) if len(sys.argv) > 1 else Path(__file__).resolve().parent.parent
    new = dict(line.split() for line in NAMES.split("\n") if line.strip())
    if len(set(new.values())) != len(new):
        sys.exit("two names of the table fall together")
    count = 0
    for path in sorted((top / "crates").rglob("*")):
        if path.suffix in (".antt", ".rt", ".edit") and "out" not in path.relative_to(top).parts:
            text = path.read_text(encoding="utf-8")
            respelling = respelt(text, new)
            if respelling != text:
                path.write_text(respelling, encoding="utf-8")
                count += 1
    print(f"{count} files respelt")


if __name__ == "__main__":
    main()
