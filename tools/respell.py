#!/usr/bin/env python3
"""Writes the repository's own definitions and lemmas in snake case, in sources, proofs, edits and pages.

usage: python3 tools/respell.py [FOLDER]        FOLDER is the top of a checkout; without it, this one

A name of NAMES gets `_` for each dash and before each capital, which becomes a small letter. LEMMAS are
names that would then be that of another definition: they end in `_lem`. A dash stays where it joins the
names of two definitions, as in `encode-length`. In pages only what stands in backticks is turned. A
second run changes nothing.
"""
import os
import re
import sys

NAMES = """
    addedLive after-it afterPlacing afterReading all-run allServed and-half and-not and-odd answerText
    any-call apart-exchanged apart-shuffled as-defined as-many-free at-0 at-2 at-3 at-object at-origin at-root
    awaits-on begin-call begin-keeps beginBy beginStep begun-keeps begunAnswer below-digit blank-are-free
    body-said bodyRole bodyStep born-births born-busy born-idle born-so born-sound bornMarked by-root byKey
    bytesIn cabling-0 cabling-257 cabling-7 cablingLegal cablingReference cablingSize callFrom callText
    callsIn cardsOf cleanCards clear-alike clear-edits clear-keeps clearRoot closed-as-free closed-not-open
    closedKind cond-ok continue-less continue-more copy-alike copy-edits copy-keeps copyRoot count-more
    counted-318 counted-319 counted-63 counted-64 counted-no counted-yes countedLegal countedReference
    countedSize counts-inside counts-ok counts-said countsAt cut-more cut-then decode-fails decode-faulty
    decode-more decode-two decodedWords digit-is digit-pow digit-zero drop-behind drop-four edit-call
    edit-edits edit-outcome edit-outside editText edits-as either-keeps either-still end-cut end-keeps
    end-size ended-outside ended-sound ends-in enterField enterFields enterObject enterObjects entered-has
    entered-is entered-keeps enters-more enters-same entries-more exchanged-at facts-begin facts-done
    facts-edit facts-refine facts-scan fails-less fault-inside faultPlace few-objects few-regions few-roots
    field-matched fields-entered fields-more fields-none fields-shaded fieldsUpto fill-most fills-more
    fillsFrom fillsOf fine-edit finished-said first-at first-here first-is first-of-none first-of-some
    firstFree follow-bounded follow-faulty follow-fits follow-formed follow-more follow-rest follow-stops
    follow-wide follow-zero follows-summarised follows-told formed-last formed-more formed-whole four-back
    four-of fourBytes fourSet free-within freeCount from-err get-edits getReference going-fault greatestOf
    groupCount groups-more guarded-guards guarded-sound has-digit head-edits head-is head-old head-still
    head-then headAt headers-push headersOf heard-more heardOf hearing-it hears-it heavier-weighs
    held-elsewhere held-ext held-looks held-one-more held-within heldBelow heldBy here-or-before hold-agree
    hold-edits holds-as-defined holds-below holds-from holds-like holds-or holds-size holds-with holds-without
    holds-zero hostAnswer image-empty image-last-root image-left-over image-not-referred image-reference
    in-fill in-regions in-store isFree isFreeAt isNoSpace isOpen isRoot isSign joined-bounded joined-faulty
    joined-has judged-is judged-ok keyLower kindNumbered kindReference kindSize lacks-one laid-sound
    last-field leads-exchanged leads-more left-full left-none left-some left-whole legalOf length-four
    list-bounded list-holds list-reach listed-scan liveFrom lives-none livesFrom located-ok long-enough
    lowest-at lowest-even lowest-odd lowest-trailing made-agree made-edits made-keeps made-looks madeMarked
    making-sound mark-call mark-ends mark-keeps mark-phase markAnswer markBy markStep marked-reached
    markedFrom markedNext marking-outside marking-sound marks-sound marksOf members-below members-bounded
    members-reach midway-all midway-more midway-none model-elsewhere model-old named-below namedUpto
    never-lacks new-edits new-equal new-keeps new-outcome new-space newAt newObject newly-known next-is-free
    next-misses nextFree no-overlap no-root no-space no-tables no-weight noMarks none-is-not none-reached
    not-before not-both not-idle not-inside not-pending noted-is noted-ok nothing-new now-in number-300
    number-below number-fault number-greatest number-longer number-old number-said number-wide numberNew
    numberOn numberReported numbers-long object-fault object-is object-more object-ok object-outside
    object-over object-said object-still object-stop object-undue objectAt objectBytes objectOf objectStep
    objects-again objects-fill objects-long objects-more objects-said objectsAt objectsBelow objectsBytes
    objectsOf ofObject off-model ok-is old-field old-guards old-head old-one old-plain old-ref on-model
    one-fewer-free one-le one-recounted open-not-free openingAt or-cond or-half or-odd outside-both over-edit
    over-same panel-and-port part-size past-fill peek-edits peek-still peekWord pending-not place-below
    placed-ok placedAll placedHeader plain-is plain-off plainCount prefixed-ok promised-marks put-again
    put-agree put-alike put-edits put-out putWord reached-below read-counts-stop read-left-over
    read-objects-stop read-roots-stop read-several read-sign-stop read-start-stop read-two read-within readAt
    reading-fits reads-back reference-is reference-names referenceCount referenceOf referenceTo refine-call
    refine-keeps refineAnswer refineNext refineStep refined-outside refined-sound refusalLine refusalOf
    refused-keeps region-of regionAt replaced-is replyText room-here root-equal root-matched root-nil
    root-outside root-same root-sound root-there rootIn rootRole rootStep roots-again roots-more roots-said
    rootsAt running-all runs-collect same-agree same-edits same-everywhere same-guards same-outside
    same-roots-edits same-still sameAnswered sameRoots scan-keeps scanCount scanCountOf scanField scanFields
    scanned-scan scansOn seenOf set-agree set-alike set-edits setReference shade-guards shade-sound
    shaded-sound shadedAt shadedOld shadedRoot shadedRoots shades-among shades-more shades-none shades-same
    shades-scanned sign-ok sign-said signAt skip-field space-as-defined spare-four spareBytes stale-one
    stands-edit stands-scan start-agree start-said stays-clean step-within steppedBy stops-less stops-more
    summaryAt summaryOf tableIn tally-ext tally-front tally-in tally-join tally-le tally-more tally-no
    tally-ones tally-out tally-range tally-split tally-yes three-words tied-equal tied-hold tied-looks
    tied-new tied-plain tied-reference tiles-append tiles-elsewhere tiles-fill tiles-none tiles-resize
    total-more two-are-found underway-begin underway-edit underway-same underway-scan unmarked-reached
    value-fault value-inside value-judged value-ok value-said value-step value-stop values-said values-written
    verdict-fits verdictOf weight-here weight-most weight-there weight-within weightOf with-digit withCards
    withFill withKind withLive withLiveAt withMarks withObject withOne withPhase withRegion withRegions
    withRoot withStart withStarts withTables withThree withTwo withWord within-cut within-size without-digit
    without-length word-elsewhere word-equal word-here word-names word-old word-outside wordAnswered wordDone
    wordRead wordWritten words-four words-push words-within work-list writeAt written-edits written-long
    written-outside written-sound written-wrote wrote-looks zero-at zeros-inside zeros-length zeros-more
    zeros-none zeros-outside
    numberRefusalOf modelEdited heapGraph withHeapRoot modelGraph modelGet withHeapWord modelSet modelPut makingRegions
""".split()

LEMMAS = """
    get-at kind-size object-at of-object put-at set-at table-in with-object
""".split()


def snake(name):
    return re.sub(r"(?<=[a-z0-9])[A-Z]", lambda it: "_" + it.group().lower(), name).replace("-", "_")


TABLE = {name: snake(name) for name in NAMES} | {name: snake(name) + "_lem" for name in LEMMAS}
WORD = re.compile(r"(?<![A-Za-z0-9_'\-])[a-z][A-Za-z0-9_'\-]*")
QUOTED = re.compile(r"`[^`\n]+`")


def turned(text):
    return WORD.sub(lambda it: TABLE.get(it.group(), it.group()), text)


def files(top):
    for folder, folders, names in os.walk(os.path.join(top, "crates")):
        folders[:] = [name for name in folders if name != "out"]
        yield from (os.path.join(folder, name) for name in names if name.endswith((".antt", ".rt", ".edit")))
    pages = [os.path.join(top, "docs", name) for name in os.listdir(os.path.join(top, "docs"))]
    yield from (page for page in [os.path.join(top, "README.md"), *pages] if page.endswith(".md"))


def main():
    top = sys.argv[1] if len(sys.argv) > 1 else os.path.join(os.path.dirname(os.path.abspath(__file__)), "..")
    changed = 0
    for path in files(top):
        with open(path, encoding="utf-8") as it:
            text = it.read()
        new = QUOTED.sub(lambda it: turned(it.group()), text) if path.endswith(".md") else turned(text)
        if new != text:
            changed += 1
            with open(path, "w", encoding="utf-8") as it:
                it.write(new)
    print(f"{changed} files changed")


main()
