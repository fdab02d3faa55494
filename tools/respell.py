#!/usr/bin/env python3
"""Brings this repository's own definitions, fields, constructors and lemmas to today's spelling.

Run once, at the top, after the kit's port.py. Words are in snake case; a dash stays where it joins
the parts of a lemma's name. Names that would have fallen together or become their neighbours'
differ: the constructor is-asked becomes now_asked beside is_asked, and the lemmas rec-of and
seats-of get _lem beside the functions rec_of and seats_of. blankRow of boards and blank-row of logs
both become blank_row: no file has both in scope. Whole words are replaced, in every file of specs/,
proofs/ and src/; none of them is a function, a string, an input or an output of src/.
"""
import pathlib
import re

NAMES = """
    coord-room coord_room
    outcomeOf outcome_of
    isDurable is_durable
    isVolatile is_volatile
    isIdle is_idle
    isAsked is_asked
    isVoted is_voted
    isGone is_gone
    idleVolatile idle_volatile
    idleDurable idle_durable
    pendingVolatile pending_volatile
    votedDurable voted_durable
    vacantFrom vacant_from
    blank-table blank_table
    askedIf asked_if
    inState in_state
    withPlace with_place
    seatedIf seated_if
    newStanding new_standing
    startsDurable starts_durable
    durableAsked durable_asked
    doneIf done_if
    foundBy found_by
    askOutcome ask_outcome
    faultyPeer faulty_peer
    hearNoted hear_noted
    hearCommitted hear_committed
    logOf log_of
    decision-kind decision_kind
    vote-kind vote_kind
    kept-kind kept_kind
    undone-kind undone_kind
    ofTransaction of_transaction
    isDecision is_decision
    isOwn is_own
    isEnding is_ending
    endedBy ended_by
    addsRecord adds_record
    open-ended open_ended
    rolled-back rolled_back
    coordEnd coord_end
    partEnd part_end
    stateCode state_code
    stateName state_name
    partCode part_code
    partName part_name
    ballotName ballot_name
    short-outbox short_outbox
    other-right other_right
    invalid-state invalid_state
    cannot-register cannot_register
    other-transaction other_transaction
    unknown-transaction unknown_transaction
    invalid-peer invalid_peer
    log-full log_full
    seatIn seat_in
    byHead by_head
    toldBy told_by
    byInitiator by_initiator
    bySeat by_seat
    newParty new_party
    seatsBy seats_by
    byRegister by_register
    byJoin by_join
    byPart by_part
    byMail by_mail
    asks-commit asks_commit
    asks-rollback asks_rollback
    asks-outcome asks_outcome
    takes-nothing takes_nothing
    atFirst at_first
    blankRow blank_row
    movedOn moved_on
    cell-count cell_count
    bytesIn bytes_in
    safeIn safe_in
    looseIn loose_in
    roomIn room_in
    recAt rec_at
    recsIn recs_in
    postsAfter posts_after
    notesIn notes_in
    hasRoom has_room
    looseAfter loose_after
    addAnswer add_answer
    holdingAfter holding_after
    blank-row blank_row
    tray-length tray_length
    held-length held_length
    safeOf safe_of
    looseOf loose_of
    votedFor voted_for
    recordOf record_of
    runsOf runs_of
    recBytes rec_bytes
    recOf rec_of
    example-bytes example_bytes
    pairsIn pairs_in
    seatsOf seats_of
    modelOf model_of
    rowMeans row_means
    pair-count pair_count
    record-length record_length
    seat-count seat_count
    participantTray participant_tray
    participantJournal participant_journal
    askedOne asked_one
    askedLine asked_line
    askedParticipant asked_participant
    askedTwo asked_two
    askedLineOf asked_line_of
    askedParticipantOf asked_participant_of
    askedThree asked_three
    askedBy asked_by
    sampleRecs sample_recs
    hexDigit hex_digit
    hexText hex_text
    kindText kind_text
    seatMark seat_mark
    seatsBelow seats_below
    seatText seat_text
    nounText noun_text
    recordText record_text
    kindNumber kind_number
    goesUp goes_up
    kindName kind_name
    noteBy note_by
    noteIn note_in
    phaseCode phase_code
    partyCode party_code
    says-aborted says_aborted
    says-committed says_committed
    votes-again votes_again
    views-again views_again
    is-asked now_asked
    gives-up-work gives_up_work
    undoes-noted undoes_noted
    vote-safe vote_safe
    kept-safe kept_safe
    undone-safe undone_safe
    getD-turned get_or-turned
    notesIn-append notes_in-append
    notesIn-more notes_in-more
    notesIn-some notes_in-some
    notesIn-none notes_in-none
    firstOf-none first_of-none
    firstOf-more first_of-more
    firstOf-set first_of-set
    firstOf-length first_of-length
    firstOf-at first_of-at
    safeOf-all safe_of-all
    looseOf-none loose_of-none
    looseOf-length loose_of-length
    safeOf-part safe_of-part
    length-pairsIn length-pairs_in
    pairsIn-padded pairs_in-padded
    padded-pairsIn padded-pairs_in
    pairsIn-split pairs_in-split
    pairsIn-more pairs_in-more
    rec-of rec_of_lem
    seats-of seats_of_lem
    askCommit ask_commit
    askRollback ask_rollback
    byRight by_right
    commitAsked commit_asked
    durablePrepares durable_prepares
    faultNumber fault_number
    faultSent fault_sent
    faultText fault_text
    getD-mapped get_or-mapped
    headDoes head_does
    hearDecided hear_decided
    hearFrom hear_from
    hearRolled hear_rolled
    hearSeated hear_seated
    inRoom in_room
    looseOf-add loose_of-add
    ownRecord own_record
    partDoes part_does
    partVotes part_votes
    replyOf reply_of
    reportNumber report_number
    reportOf report_of
    rollbackAsked rollback_asked
    rollsBack rolls_back
    safeOf-add safe_of-add
    scannedBy scanned_by
    seatAt seat_at
    signIn sign_in
    toEach to_each
    volatileAsked volatile_asked
    voteAs vote_as
    voteFor vote_for
    was-given was_given
"""

TABLE = dict(line.split() for line in NAMES.split("\n") if line.strip())
TOKEN = re.compile(r"[^\s(){}\[\];,.\"]+")


def respelled(text):
    return TOKEN.sub(lambda m: TABLE.get(m.group(0), m.group(0)), text)


def main():
    root = pathlib.Path("crates")
    files = sorted(root.glob("*/specs/**/*.antt")) + sorted(root.glob("*/proofs/**/*.antt"))
    files += sorted(root.glob("*/src/**/*.rt"))
    changed = 0
    for file in files:
        old = file.read_text()
        new = respelled(old)
        if new != old:
            file.write_text(new)
            changed += 1
    print(f"respell: {changed} files")


main()
