#!/usr/bin/env python3
"""Respells this repository's own definitions, lemmas and record fields as today's Rattle spells names:
words in snake case, types and facts in camel case.

usage: python3 tools/respell_names.py [FOLDER]

Run once, at the top of a checkout, after the kit's own port.py; a second run changes nothing. It turns
crates/*/{src,specs,proofs,must-fail} and the code spans of README.md and docs/*.md. Functions of src/,
exported names, strings, inputs and outputs keep their names: none of them is in the tables.
"""

import os
import re
import sys

# Definitions and lemmas: old>new.
NAMES = """
  Asks-extremes>AsksExtremes At-limit>AtLimit Dead-and-live>DeadAndLive Deck-of-slab>DeckOfSlab
  Not-carried>NotCarried One-factor-a-type>OneFactorAType Past-limit>PastLimit Runs-through>RunsThrough
  Stud-force>StudForce Tells-bending>TellsBending Tells-extremes>TellsExtremes Tells-shear>TellsShear
  Thin-plate>ThinPlate Too-strong>TooStrong Verdict-at>VerdictAt a-fits>a_fits above-both>above_both
  above-front>above_front above-le>above_le above-measured>above_measured above-mono>above_mono
  above-next>above_next above-none>above_none aboveAt>above_at accepted-back>accepted_back added-small>added_small
  adds-below>adds_below adds-digit>adds_digit adds-is>adds_is adds-pair>adds_pair adds-pairs>adds_pairs
  adds-small>adds_small adds-step>adds_step after-accepted>after_accepted after-by>after_by
  after-refused>after_refused all-at>all_at all-below>all_below all-lawful>all_lawful alone-is>alone_is
  and-true>and_true answer-same>answer_same answer-unique>answer_unique answered-or-refused>answered_or_refused
  answered-or-told>answered_or_told as-float>as_float at-end>at_end at-limit>at_limit axis-at>axis_at
  axis-small>axis_small axis-unique>axis_unique b-fits>b_fits bars-of>bars_of before-by>before_by
  below-anti>below_anti below-ge>below_ge below-past>below_past belowAt>below_at bending-line>bending_line
  bending-refused>bending_refused beq-refl>beq_refl between-small>between_small blank-at>blank_at
  block-before>block_before block-depth>block_depth block-is>block_is block-no-depth>block_no_depth
  block-past>block_past block-strips>block_strips block-sum>block_sum blockStrip>block_strip both-and>both_and
  bottom-flange>bottom_flange brings-change>brings_change by-types>by_types changed-by>changed_by clash-in>clash_in
  clash-none>clash_none clash-of>clash_of clash-of-sym>clash_of_sym clash-same>clash_same clash-sym>clash_sym
  closed-above>closed_above closed-below>closed_below composite-is>composite_is cover-laws>cover_laws
  cover-strips>cover_strips cracked-laws>cracked_laws dead-and-live>dead_and_live decimal-pair>decimal_pair
  decimal-pairs>decimal_pairs deck-depth>deck_depth deck-is>deck_is deck-laws>deck_laws deck-pulls>deck_pulls
  deck-pushes>deck_pushes deck-total>deck_total depth-beside>depth_beside depth-both>depth_both
  depth-next>depth_next depth-none>depth_none depth-some>depth_some drop-two>drop_two effect-kind>effect_kind
  either-kind>either_kind either-laws>either_laws empty-table>empty_table eq-in>eq_in eq-out>eq_out
  even-after>even_after even-before>even_before extremes-are>extremes_are extremes-from>extremes_from
  extremes-line>extremes_line extremes-only>extremes_only factored-slot>factored_slot factored-small>factored_small
  fatigue-I>fatigue_i fatigue-II>fatigue_ii fault-at>fault_at fault-line>fault_line fit-push>fit_push
  fits-empties>fits_empties fits-from>fits_from fits-lower>fits_lower fits-put>fits_put fits-same>fits_same
  fits-slot>fits_slot foot-depth>foot_depth force-above>force_above_closed force-at>force_at
  force-below>force_below_closed force-in>force_in force-kept>force_kept force-none>force_none force-of>force_of
  force-push>force_push force-small>force_small force-some>force_some forceAbove>force_above
  forceAbove-both>force_above_both forceAbove-le>force_above_le forceBelow>force_below
  forceBelow-both>force_below_both forceBelow-le>force_below_le forces-alike>forces_alike forces-both>forces_both
  forces-next>forces_next forces-none>forces_none forces-small>forces_small four-add>four_add four-ap>four_ap
  four-back>four_back four-fits>four_fits four-le>four_le from-here>from_here front-le>front_le
  front-small>front_small getD-empties>get_or-empties getD-lowered>get_or-lowered getD-zeros>get_or_zeros
  girder-depth>girder_depth girder-inside>girder_inside going-none>going_none greatest-above>greatest_above
  halves-alike>halves_alike here-or-later>here_or_later high-factor>high_factor high-factor-meets>high_factor_meets
  hogging-beside>hogging_beside hogging-forces>hogging_forces hollow-total>hollow_total imbalanceAt>imbalance_at
  imbalanceIn>imbalance_in interface-force>interface_force is-above>is_above is-count>is_count is-from>is_from
  is-range>is_range is-sixteenths>is_sixteenths is-sized>is_sized judged-fraction>judged_fraction
  judged-means>judged_means judged-sixteenths>judged_sixteenths kind-of>kind_of known-or-not>known_or_not
  lacks-none>lacks_none larger-before>larger_before lawful-depth>lawful_depth lawful-force>lawful_force
  lawful-forces-small>lawful_forces_small lawful-from>lawful_from lawful-small>lawful_small layer-name>layer_name
  layerForce>layer_force layerStrip>layer_strip layersForce>layers_force layersStrip>layers_strip le-no>le_no
  le-or-lt>le_or_lt least-below>least_below least-is>least_is leaves-cond>leaves_cond leaves-parsed>leaves_parsed
  leaves-taking>leaves_taking left-cond>left_cond left-parsed>left_parsed left-taking>left_taking
  length-pair>length_pair length-step>length_step less-fits>less_fits light-at>light_at light-empties>light_empties
  light-lift>light_lift light-lower>light_lower light-put>light_put line-end>line_end load-type>load_type
  low-factor>low_factor low-factor-meets>low_factor_meets lower-at>lower_at lower-turn>lower_turn
  lowered-in>lowered_in lowered-plate>lowered_plate lt-or-le>lt_or_le make-note>make_note minus-fits>minus_fits
  moment-above-step>moment_above_step moment-below-step>moment_below_step moment-le>moment_le moment-of>moment_of
  moment-or-none>moment_or_none moment-small>moment_small moment-step>moment_step momentAbove>moment_above
  momentAbove-both>moment_above_both momentAbove-le>moment_above_le momentAt>moment_at momentBelow>moment_below
  momentBelow-both>moment_below_both momentBelow-le>moment_below_le momentIn>moment_in more-fits>more_fits
  most-is>most_is moved-between>moved_between moved-level>moved_level narrowed-all>narrowed_all
  narrowed-depth>narrowed_depth narrowed-high>narrowed_high narrowed-parts>narrowed_parts next-none>next_none
  no-later>no_later no-smaller>no_smaller no-strength>no_strength noStrips>no_strips nominal-le>nominal_le
  nominal-moment>nominal_moment none-at>none_at none-clashes>none_clashes none-larger>none_larger
  none-of-plates>none_of_plates none-past>none_past none-stands>none_stands none-sum>none_sum
  not-compact>not_compact not-sixteenths>not_sixteenths not-sixteenths-value>not_sixteenths_value of-kind>of_kind
  of-signed>of_signed of-slab>of_slab ok-not-err>ok_not_err once-empties>once_empties once-lift>once_lift
  once-lowered>once_lowered once-put>once_put one-bend>one_bend one-bending>one_bending one-change>one_change
  one-coefficient>one_coefficient one-content>one_content one-depth>one_depth one-digit>one_digit
  one-enter>one_enter one-extremes>one_extremes one-fault>one_fault one-force>one_force one-le-pow>one_le_pow
  one-obeyed>one_obeyed one-reason>one_reason one-refused>one_refused one-resistance>one_resistance one-run>one_run
  one-shear>one_shear one-step>one_step one-strip>one_strip one-tells-extremes>one_tells_extremes
  one-transcript>one_transcript one-verdict>one_verdict or-none>or_none out-fits>out_fits out-high>out_high
  out-low>out_low out-of-range-value>out_of_range_value outside-limits>outside_limits outside-or-not>outside_or_not
  over-all>over_all over-here>over_here over-long>over_long over-step>over_step pair-steel>pair_steel
  part-light>part_light part-number>part_number passes-in>passes_in past-limit>past_limit places-le>places_le
  plastic-moment>plastic_moment plate-above>plate_above plate-kept>plate_kept plate-of>plate_of
  plate-resultants>plate_resultants plate-strips>plate_strips plates-are>plates_are plates-at>plates_at
  plates-depth>plates_depth plates-laws>plates_laws plus-fits>plus_fits plus-is>plus_is plus-two>plus_two
  pow-back>pow_back product-fits>product_fits published-lawful>published_lawful pulls-end>pulls_end
  pulls-light>pulls_light pushed-is>pushed_is pushes-end>pushes_end pushes-light>pushes_light pushes-of>pushes_of
  put-bars>put_bars put-fits>put_fits put-heavy>put_heavy put-more>put_more put-none>put_none put-pushes>put_pushes
  question-number>question_number range-of>range_of read-note>read_note reason-back>reason_back
  reason-layer>reason_layer reason-number>reason_number reason-of>reason_of report-of>report_of
  resultants-both>resultants_both resultants-next>resultants_next resultants-none>resultants_none
  resultants-small>resultants_small role-number>role_number role-of>role_of role-stands>role_stands
  root-only>root_only root-some>root_some rounded-up>rounded_up sagging-beside>sagging_beside
  sagging-forces>sagging_forces same-clash>same_clash same-is>same_is same-role>same_role same-slot>same_slot
  seen-lower>seen_lower seen-past>seen_past seen-small>seen_small seen-upper>seen_upper service-I>service_i
  service-II>service_ii shape-laws>shape_laws shear-line>shear_line shear-refused>shear_refused
  sheet-layer>sheet_layer sheet-number>sheet_number sheet-strips>sheet_strips short-buffer>short_buffer
  sixteen-is>sixteen_is sixteenths-in>sixteenths_in sized-web>sized_web slab-pulls>slab_pulls
  slab-pushes>slab_pushes slabForce>slab_force slabStrip>slab_strip slot-below>slot_below
  slot-by-types>slot_by_types slot-empty>slot_empty slot-end>slot_end slot-foot>slot_foot slot-full>slot_full
  slot-inside>slot_inside slot-out>slot_out slot-put>slot_put slot-strips>slot_strips slot-with>slot_with
  small-bits>small_bits small-empties>small_empties small-set>small_set some-larger>some_larger
  some-moment>some_moment some-no>some_no some-none>some_none some-not-none>some_not_none some-slot>some_slot
  some-yes>some_yes spacing-fits>spacing_fits spacing-of>spacing_of stack-forces-small>stack_forces_small
  stack-small>stack_small stacked-end>stacked_end stacked-next>stacked_next stacked-push>stacked_push
  stackedTotal>stacked_total standing-kept>standing_kept standing-none>standing_none standing-other>standing_other
  stands-or-not>stands_or_not step-fault>step_fault step-text>step_text strength-I>strength_i
  strength-II>strength_ii strength-III>strength_iii strength-IV>strength_iv strength-V>strength_v
  strengthAbove>strength_above strengthAbove-sum>strength_above-sum strengthBelow>strength_below
  strengthBelow-sum>strength_below-sum strip-at>strip_at strip-before>strip_before strip-none>strip_none
  strip-past>strip_past strip-push>strip_push strip-sum>strip_sum strips-end>strips_end sum-at>sum_at
  sum-bits>sum_bits sum-getD>sum-get_or sum-read>sum_read sum-small>sum_small sumTo-add>sum_to_add
  sumTo-cong>sum_to_cong sumTo-first>sum_to_first sumTo-le>sum_to_le sumTo-mono>sum_to_mono sumTo-past>sum_to_past
  sumTo-split>sum_to_split sumTo-suc>sum_to_suc sumTo-times>sum_to-times sumTo-zero>sum_to_zero
  sums-empties>sums_empties table-depth>table_depth tableStrip>table_strip take-two>take_two test-from>test_from
  test-some>test_some thin-alone>thin_alone thin-inside>thin_inside thin-plate>thin_plate three-fits>three_fits
  three-is>three_is times-add>times_add times-is>times_is times-le>times_le times-one>times_one
  too-long-line>too_long_line too-low>too_low too-strong>too_strong top-flange>top_flange total-force>total_force
  total-force-kept>total_force_kept total-is>total_is total-more>total_more total-push>total_push
  total-small>total_small tried-lines>tried_lines turning-axis>turning_axis two-on>two_on two-placed>two_placed
  two-shorter>two_shorter type-sum>type_sum type-sums>type_sums unlike-plus>unlike_plus upper-at>upper_at
  upper-turn>upper_turn value-number>value_number verdict-number>verdict_number weaker-pull>weaker_pull
  web-above>web_above web-fits>web_fits with-moment>with_moment with-plates>with_plates within-lawful>within_lawful
  within-put>within_put wrote-fault>wrote_fault wrote-line>wrote_line zero-at>zero_at
"""

# Fields of records in specs/ and proofs/: old>new. A name behind a dot is looked up here alone,
# since what Rattle makes of the code (`c.step`) stands behind a dot too.
FIELDS = """
  above-is>above_is below-is>below_is force-is>force_is greatest-area>greatest_area greatest-ec>greatest_ec
  greatest-fc>greatest_fc greatest-fu>greatest_fu height-is>height_is high-met>high_met imbalance-is>imbalance_is
  is-axis>is_axis is-bottom>is_bottom is-force>is_force is-part-depth>is_part_depth is-plates-depth>is_plates_depth
  is-resistance>is_resistance is-top>is_top is-web>is_web layers-fit>layers_fit least-area>least_area
  least-ec>least_ec least-fc>least_fc least-fu>least_fu low-met>low_met moment-is>moment_is next-passes>next_passes
  one-reading>one_reading part-depth>part_depth plates-depth>plates_depth pulls-are>pulls_are pulls-end>pulls_end
  pulls-light>pulls_light pushes-are>pushes_are pushes-end>pushes_end pushes-light>pushes_light rest-is>rest_is
  slab-fits>slab_fits some-moment>some_moment square-fits>square_fits strength-is>strength_is strips-are>strips_are
  top-is>top_is total-is>total_is weaker-pull>weaker_pull
"""

WORD = re.compile(r"[^\s(){}\[\].,;:=λ→×⊎≡≤<>|\"`+*/^∷?↦∙«»]+")
SPAN = re.compile(r"`[^`\n]*`")


def table(text):
    return dict(pair.split(">") for pair in text.split())


NAME, FIELD = table(NAMES), table(FIELDS)
EITHER = {**FIELD, **NAME}


def turned(text, aliases=()):
    """The text with each word of the tables respelled."""

    def word(m):
        w, at = m.group(0), m.start()
        if at and text[at - 1] == "." and not (at > 1 and text[at - 2] == "."):
            head = re.search(r"([\w-]+)\.$", text[:at])
            if head and head.group(1) in aliases:
                return NAME.get(w, w)
            return FIELD.get(w, w)
        return EITHER.get(w, w)

    return WORD.sub(word, text)


def spans(text):
    """The text with the words of its code spans respelled."""
    return SPAN.sub(lambda m: turned(m.group(0)), text)


def rattle(text):
    """A source or a proof file: its code, and the code spans of its comments; no strings."""
    aliases = set(re.findall(r"(?m)^(?:ghost )?use Rattle\.\S+ as (\w+)", text))
    out = []
    for line in text.split("\n"):
        m = re.match(r"^\s*(//|--)", line)
        if m:
            out.append(spans(line))
            continue
        parts = re.split(r'("(?:[^"\\]|\\.)*")', line)
        out.append("".join(p if i % 2 else turned(p, aliases) for i, p in enumerate(parts)))
    return "\n".join(out)


def main():
    top = sys.argv[1] if len(sys.argv) > 1 else "."
    changed = 0
    for folder, dirs, files in os.walk(top):
        dirs[:] = sorted(d for d in dirs if d not in ("out", ".git", "tools", "target"))
        for name in sorted(files):
            path = os.path.join(folder, name)
            if name.endswith((".rt", ".antt", ".edit")):
                turn = rattle
            elif name.endswith(".md"):
                turn = spans
            else:
                continue
            with open(path, encoding="utf-8") as f:
                old = f.read()
            new = turn(old)
            if new != old:
                with open(path, "w", encoding="utf-8") as f:
                    f.write(new)
                changed += 1
    print(f"{changed} files respelled")


if __name__ == "__main__":
    main()
