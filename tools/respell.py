#!/usr/bin/env python3
"""Brings the repository's own definitions and lemmas to today's spelling: snake case, with a dash only between two names of functions.

Run once at the top of the repository, after the kit's port script. It goes by whole words, in the .rt, .antt and .edit files below crates/, and in docs/ by words in backticks.
"""
import os
import re

# old=new
NAMES = """
after-all=after_all after-long=after_long all-answered=all_answered all-entered=all_entered all-later=all_later all-octets=all_octets
all-packed=all_packed all-passed=all_passed all-unpacked=all_unpacked all-zeros=all_zeros alpha-below=alpha_below alpha-fits=alpha_fits
alpha-some=alpha_some answerAt=answer_at answered-sent=answered_sent answers-rest=answers_rest anyCoderSizes=any_coder_sizes apart-at=apart_at
append-elements=append_elements arrivedAt=arrived_at at-0=at_0 at-clock=at_clock at-elements=at_elements at-least-four=at_least_four
at-most-octets=at_most_octets at-weight=at_weight atLocators=at_locators atWord=at_word b-back=b_back begun-long=begun_long below-reach=below_reach
bit-back=bit_back bit-formula=bit_formula bit-of=bit_of bit-scales=bit_scales bit-times=bit_times bits-low=bits_low bits-of-octets=bits_of_octets
bits-shifted=bits_shifted block-le=block_le blocks-below=blocks_below blocks-cut=blocks_cut blocks-in=blocks_in blocks-outs=blocks_outs
both-vanish=both_vanish branch-lt=branch_lt branch-of=branch_of by-root-elements=by_root_elements by-root-long=by_root_long by-root=by_root
carried-done=carried_done carried-more=carried_more carried-root=carried_root causeNumber=cause_number check-elements=check_elements
check-long=check_long check-of=check_of_lem check-only=check_only check-register=check_register check-remains=check_remains
checkDifference=check_difference checkOf=check_of checked-words=checked_words cleared-memory=cleared_memory clock-below=clock_below close-by=close_by
closeAnswer=close_answer closed-so-far=closed_so_far codeOver=code_over coder-loss=coder_loss coderFits=coder_fits copy-behind=copy_behind
cut-more=cut_more decoded-distance=decoded_distance decoded-only=decoded_only decoded-word=decoded_word decoding-samples=decoding_samples
delay-below=delay_below delay-high=delay_high delay-low=delay_low delayOf=delay_of descrambledBits=descrambled_bits
difference-agrees=difference_agrees difference-elements=difference_elements difference-long=difference_long difference-none=difference_none
distance-behind=distance_behind distance-le=distance_le distance-more=distance_more distance-set-back=distance-set_back
distance-set-self=distance-set_self distance-symmetric=distance_symmetric distance-triangle=distance_triangle distance-zero=distance_zero
divisor-le=divisor_le done-few=done_few doubled-below=doubled_below doubled-linear=doubled_linear doubled-low=doubled_low drainAnswer=drain_answer
drains-now=drains_now drop-elements=drop_elements due-length=due_length due-lt=due_lt earlier-same=earlier_same earlierAt=earlier_at
earlierBits=earlier_bits eightOn=eight_on eightTaps=eight_taps elements-octets=elements_octets elements-tail=elements_tail
elements-within=elements_within ends-before=ends_before err-agrees=err_agrees err-elements=err_elements err-long=err_long error-agrees=error_agrees
error-elements=error_elements error-long=error_long error-mends=error_mends error-only=error_only error-value=error_value error-weight=error_weight
every-power=every_power exchanged-other=exchanged_other factor-back=factor_back far-off=far_off few-differ=few_differ few-within=few_within
fillAnswer=fill_answer filled-word=filled_word fills-now=fills_now first-long=first_long first-mark=first_mark first-of-product=first_of_product
first-syndrome=first_syndrome formula-back=formula_back found-error=found_error found-few=found_few found-longest=found_longest found-more=found_more
found-passes=found_passes frame-fits=frame_fits frame-long=frame_long frameFits=frame_fits frames-arrive=frames_arrive front-else=front_else
front-stored=front_stored gathered-by=gathered_by gathered-word=gathered_word generator-elements=generator_elements generator-long=generator_long
generator-roots=generator_roots generator-split=generator_split getD-joined=get_d_joined getD-late=get_d_late gone-on=gone_on got-long=got_long
half-long=half_long held-few=held_few held-longer=held_longer hits-at-most-once=hits_at_most_once hits-once=hits_once horner-step=horner_step
howMany-all=how_many_all howMany-less=how_many_less howMany-next=how_many_next howMany=how_many if-allowed=if_allowed in-ring=in_ring in-room=in_room
in-time=in_time inverse-below=inverse_below inverse-unique=inverse_unique is-octet=is_octet is-root=is_root j-lt=j_lt joined-elements=joined_elements
kept-fits=kept_fits kept-is=kept_is kept-none=kept_none lag-enough=lag_enough lag-least=lag_least lagOf=lag_of last-earlier=last_earlier
last-long=last_long last-two=last_two late-before=late_before late-same=late_same latest-all=latest_all latest-renewed=latest_renewed
leaving-at=leaving_at leaving-same=leaving_same left-b=left_b left-linear=left_linear left-now=left_now length-line=length_line
length-message-bits=length_message_bits length-out=length_out length-word=length_word line-holds=line_holds line-octets=line_octets lineFits=line_fits
linear-after=linear_after linear-sum=linear_sum linear-zero=linear_zero locators-differ=locators_differ locators-few=locators_few
log-of-power=log_of_power logTable=log_table logged-at=logged_at logs-many=logs_many logs-right=logs_right long-moved=long_moved
long-values=long_values long-word=long_word longest-by=longest_by lossNumber=loss_number low-next=low_next low-plus=low_plus low-scaled=low_scaled
lowAt=low_at lower-elements=lower_elements made-clear=made_clear made-long=made_long majority-nearest=majority_nearest majorityOf=majority_of
many-differ=many_differ markedWith=marked_with marks-more=marks_more marksIn=marks_in memoryOf=memory_of mend-at=mend_at mend-elements=mend_elements
mend-long=mend_long mend-more=mend_more mend-next=mend_next mend-other=mend_other mended-distance=mended_distance mended-long=mended_long
mended-message=mended_message mended-only=mended_only mended-sum=mended_sum mended-word=mended_word message-bits-append=message_bits-append
message-of=message_of messageBits=message_bits met-so-far=met_so_far misfitNumber=misfit_number missing-first=missing_first missing-kept=missing_kept
missing-more=missing_more missing-next=missing_next missing-none=missing_none missing-same=missing_same mixed-cleared=mixed_cleared
mixed-same=mixed_same mostWords=most_words moved-which=moved_which near-one=near_one near-whole=near_whole nearest-upto=nearest_upto
next-root=next_root no-marks=no_marks none-different=none_different none-near=none_near none-packed=none_packed none-sent=none_sent
none-unpacked=none_unpacked not-handed-out=not_handed_out nothing-else=nothing_else nothing-inverts=nothing_inverts nothing-missed=nothing_missed
nothing-stands=nothing_stands now-blocks=now_blocks number-below=number_below number-held=number_held number-of-bits=number_of_bits octet-at=octet_at
octet-is=octet_is octet-laws=octet_laws octet-or-not=octet_or_not octet-ranked=octet_ranked octet-there=octet_there octets-all=octets_all
octets-are=octets_are octets-at=octets_at octets-elements=octets_elements octets-generated=octets_generated octets-of-bits=octets_of_bits
octetsOf=octets_of odd-more=odd_more oddAt=odd_at of-frame=of_frame on-bits=on_bits once-blocks=once_blocks once-length=once_length
one-branch=one_branch one-element=one_element one-first=one_first one-message=one_message one-owner=one_owner one-packed=one_packed
one-passed=one_passed one-push=one_push one-times-bits=one_times_bits one-unpacked=one_unpacked openAnswer=open_answer order-above=order_above
order-less=order_less other-apart=other_apart out-late=out_late out-then=out_then outs-same=outs_same packed-below=packed_below
packed-down=packed_down packed-top=packed_top packed-up=packed_up packed-wider=packed_wider part-lt=part_lt parts-le=parts_le parts-pos=parts_pos
pass-left=pass_left pass-none=pass_none pass-waits=pass_waits place-below=place_below places-few=places_few places-rest=places_rest
plus-again=plus_again plus-appended=plus_appended plus-elements=plus_elements plus-long=plus_long plus-padded=plus_padded plus-reads=plus_reads
plus-self=plus_self power-add=power_add power-of-log=power_of_log power-of-order=power_of_order power-some=power_some power-swap=power_swap
powerTable=power_table powers-add=powers_add powers-around=powers_around powers-differ=powers_differ powers-right=powers_right pred-mul=pred_mul
product-elements=product_elements product-long=product_long product-some=product_some products-long=products_long queue-is=queue_is
quotient-long=quotient_long raised-add=raised_add raised-of-one=raised_of_one raised-one=raised_one raised-some=raised_some raised-swap=raised_swap
rank-apart=rank_apart rank-back=rank_back rank-in-back=rank_in_back rank-in-lt=rank_in_lt rankIn=rank_in reach-below=reach_below reach-met=reach_met
reachOf=reach_of receiveAnswer=receive_answer receiversBank=receivers_bank redo-bits=redo_bits reducedInverse=reduced_inverse
reducedTimes=reduced_times reedSolomonSizes=reed_solomon_sizes refusedNumber=refused_number register-elements=register_elements
register-long=register_long register-next=register_next register-none=register_none register-push=register_push registerStep=register_step
remainder-elements=remainder_elements remainder-long=remainder_long remainder-stands=remainder_stands remainder-vanishes=remainder_vanishes
renewed-end=renewed_end rest-none=rest_none rest-same=rest_same right-linear=right_linear ring-cleared=ring_cleared ring-next=ring_next
ring-now=ring_now root-at=root_at root-elements=root_elements root-elsewhere=root_elsewhere root-first=root_first root-here=root_here
root-long=root_long root-next=root_next root-reads=root_reads root-stays=root_stays root-too=root_too root-value=root_value root-weighs=root_weighs
rooted-few=rooted_few rooted-places=rooted_places rooted-same=rooted_same roundedUp=rounded_up row-long=row_long row-stored=row_stored rsCode=rs_code
runs-now=runs_now same-earlier=same_earlier same-frame=same_frame same-frames=same_frames same-list=same_list same-messages=same_messages
same-part=same_part same-state=same_state same-words=same_words scale-below=scale_below scale-linear=scale_linear scaled-elements=scaled_elements
scaled-long=scaled_long scaled-once=scaled_once scaled-reads=scaled_reads scrambled-message=scrambled_message scrambledBits=scrambled_bits
scrambler-loss=scrambler_loss second-long=second_long second-syndrome=second_syndrome sendAnswer=send_answer sender-of=sender_of
sendersBank=senders_bank sends-now=sends_now sent-bits=sent_bits sent-message=sent_message sent-octet=sent_octet sent-one=sent_one
sent-so-far=sent_so_far sentAt=sent_at set-elements=set_elements sharp-limit=sharp_limit size-least=size_least size-most=size_most sizesOf=sizes_of
sizesOver=sizes_over so-far-draining=so_far_draining so-far-filling=so_far_filling so-far-running=so_far_running so-far-sending=so_far_sending
some-parts=some_parts spoilt-few=spoilt_few spoilt-many=spoilt_many spoilt-octets=spoilt_octets spread-below=spread_below start-now=start_now
start-suc=start_suc startAnswer=start_answer state-same=state_same staying-at=staying_at staying-same=staying_same step-elements=step_elements
step-long=step_long step-reads=step_reads still-long=still_long stream-place=stream_place take-elements=take_elements taken-bits=taken_bits
taken-octet=taken_octet taken-one=taken_one tally-all=tally_all tally-more=tally_more tally-none=tally_none tally-one=tally_one tally-same=tally_same
tally-split=tally_split tap-bits=tap_bits terms-more=terms_more terms-next=terms_next terms-plus=terms_plus termsAt=terms_at test-passed=test_passed
there-high=there_high there-low=there_low third-long=third_long three-copies=three_copies threefold-sound=threefold_sound threefoldCode=threefold_code
threefoldSizes=threefold_sizes thrice-long=thrice_long thriceCode=thrice_code through-back=through_back times-left=times_left times-next=times_next
times-one=times_one times-right=times_right timesBits=times_bits timesPower=times_power timesRoot=times_root told-apart=told_apart toldRows=told_rows
too-early=too_early true-agrees=true_agrees true-elements=true_elements true-error=true_error true-few=true_few true-long=true_long
turned-next=turned_next twice-length=twice_length twice-start=twice_start undecodedNumber=undecoded_number undo-bits=undo_bits undone-at=undone_at
unit-front=unit_front unreceivedNumber=unreceived_number upto-more=upto_more upto-none=upto_none v-long=v_long value-append=value_append
value-at=value_at_lem value-below=value_below value-element=value_element value-from=value_from value-front=value_front value-mend=value_mend
value-more=value_more value-next=value_next value-plus=value_plus value-product=value_product value-scaled=value_scaled value-single=value_single
value-terms=value_terms value-zeros=value_zeros valueAt=value_at vanishes-plus=vanishes_plus vanishing-word=vanishing_word voted-at=voted_at_lem
voted-long=voted_long voted-nearest=voted_nearest votedAt=voted_at wait-below=wait_below wait-is=wait_is waitOf=wait_of waiting-long=waiting_long
waits-at=waits_at waits-b=waits_b way-below=way_below weighed-below=weighed_below weighed-next=weighed_next weighed-none=weighed_none
weighed-push=weighed_push weighed-same=weighed_same weighed-term=weighed_term weight-before=weight_before weight-most=weight_most
weight-next=weight_next weight-none=weight_none weight-push=weight_push weight-some=weight_some whole-none=whole_none whole-power=whole_power
wide-steps=wide_steps wideLimit=wide_limit within-from=within_from within-true=within_true without-interleaving=without_interleaving
word-elements=word_elements word-enters=word_enters word-le=word_le word-long=word_long word-octets=word_octets word-of-place=word_of_place
word-pos=word_pos word-samples=word_samples word-taken=word_taken word-vanishes=word_vanishes wordFrom=word_from words-blocks=words_blocks
words-differ=words_differ words-stand=words_stand xor-again=xor_again xor-four=xor_four xor-none=xor_none zero-at=zero_at zero-element=zero_element
zero-terms=zero_terms zero-times=zero_times zeros-at=zeros_at zeros-elements=zeros_elements zeros-enter=zeros_enter zeros-long=zeros_long
zeros-read=zeros_read
"""

NAME = r"[^\s(){}\[\];,.λ⟨⟩`\"|]"


def pairs():
    return dict(pair.split("=") for pair in NAMES.split())


def main():
    new = pairs()
    words = "|".join(re.escape(name) for name in sorted(new, key=len, reverse=True))
    word = re.compile(f"(?<!{NAME})({words})(?!{NAME})")
    for root in ("crates", "docs"):
        for folder, folders, files in os.walk(root):
            folders[:] = [f for f in folders if f != "out"]
            for file in files:
                path = os.path.join(folder, file)
                if not file.endswith((".antt", ".rt", ".edit", ".md")):
                    continue
                with open(path, encoding="utf-8") as f:
                    text = f.read()
                # the step of a call of value_at, which is no lemma
                turned = text.replace("c.value-at", "c.value_at")
                if file.endswith(".md"):
                    turned = re.sub(r"`[^`\n]*`", lambda quoted: word.sub(lambda m: new[m.group(1)], quoted.group()), turned)
                else:
                    turned = word.sub(lambda m: new[m.group(1)], turned)
                if turned != text:
                    with open(path, "w", encoding="utf-8") as f:
                        f.write(turned)


if __name__ == "__main__":
    main()
