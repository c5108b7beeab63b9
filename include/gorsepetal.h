/*
** gorsepetal.h: the protection core of a line relay, for C. This file is the manual, for the
** engineer who writes a relay's firmware and for the one who works out its settings. A line can be
** set, and a decision checked, with nothing else at hand.
**
** Contents: what the library is / in short / lent slices / the relay's state / what comes back /
** two entries / settings record / units / tests at the panel / what each field should be /
** conventions / a line of three ends, worked out / window / frame by frame / event files /
** decision / balanced faults / the second zone / the quadrilateral ground loops / how far off the
** slope can be / rules / a decision, worked out / outside the library / limits / constants / the
** ten calls.
**
** WHAT THE LIBRARY IS
**
** libgorsepetal.a turns what the commissioning desk enters and one cycle of samples of the line
** into a decision. A settings record comes into force only when the same 32 bytes are proposed and
** then confirmed; it can be read back. Decide measures a window of samples by the record in force,
** and says whether to trip and why. It also says of each phase up to which slope it would operate.
** Feed does the same with one frame every sample time. Five calls are for event files, the
** recordings that utilities send: events_read cuts a file into records and feeds the frame of each,
** and events_write makes such records.
**
** The library keeps nothing between calls and allocates nothing. It calls nothing but memcpy and
** memset, which a C compiler may use in any code: the archive has no other undefined symbol. All
** that a call reads or writes is lent to it for that call. So several threads may call at once,
** each on a relay's state and on buffers of its own. The archive is for x86-64, System V calling
** convention. docs/CLAIMS.md says what is proved of its source, and what is only tested of the
** archive.
**
** Feed and events_read take less than 4 KiB of stack, decide less than 2.5 KiB, every other call
** less than 1 KiB. One function of the library calls itself: the root. No other does, not even
** through another. It is proved that the root's calls lie at most 26 deep in a decision, and 33
** deep for any number. The sizes above have room for 33. How many instructions a call takes
** depends on the ends of the line and on how large its currents are, and has a bound. The bytes
** and the instructions are measured and not proved: docs/BENCHMARKS.md.
**
** IN SHORT
**
**   static uint8_t relay[GORSEPETAL_STATE_LENGTH];   (all zero: nothing is in force)
**
**   if (gorsepetal_propose(relay, sizeof relay, first, first_len) == GORSEPETAL_DONE &&
**       gorsepetal_confirm(relay, sizeof relay, second, second_len) == GORSEPETAL_DONE)
**     in_force();
**
** and then, with the newest frame, every sample time:
**
**   if (gorsepetal_feed(relay, sizeof relay, frame, frame_len, out, sizeof out) == GORSEPETAL_DONE)
**     trip(out[GORSEPETAL_DECISION_AT_TRIP]);
**
** or, with 16 frames at hand, gorsepetal_decide with this window in place of the frame. Only after
** an answer of 0 is there a decision. For a recording, EVENT FILES has the loop. Link
** libgorsepetal.a.
**
** LENT SLICES
**
** Each slice is a pointer and a length in bytes. The length has to be true; no call can check it. A
** slice of another length than a call wants has a defined answer.
**   - The pointer is never null, not even with length 0. With length 0 it may be any valid pointer
**     that is not null; it is never read or written through.
**   - The slice lies within one object. It may begin at any address: nothing needs to be aligned.
**   - The slices of a call do not overlap. During the call no other thread writes to any of them,
**     nor reads one that is not const. So while feed runs, its state is lent to no other call.
**     Events_read is lent two that it changes, the relay and the reader, besides `out`: each lies
**     apart from the others.
**   - A const slice is never written, whatever the answer.
**
** What a call does with slices that overlap is not promised; so a `frame`, a `reader`, `bytes` or
** an `out` does not lie in the state, nor `bytes` or an `out` in the reader. A frame that a reader
** holds may be lent to events_write as it lies there: that call is lent no reader. One overlap
** defeats the two entries: an `entry` that points at the state's own pending bytes, state +
** GORSEPETAL_STATE_AT_PENDING, confirms itself. So does a buffer that is kept from the proposal
** and lent once more. No call can see either. The firmware has to lend confirm the bytes that a
** person entered the second time, in a buffer that was filled anew.
**
** THE RELAY'S STATE
**
** A relay is 738 bytes that the firmware owns, GORSEPETAL_STATE_LENGTH. All zero bytes are a fresh
** relay: nothing in force, nothing pending, no frame kept. Any other bytes are a relay too. No call
** is needed to begin or to end with one.
**
**   bytes 0 to 31     the settings record in force
**   bytes 32 to 63    the pending record: proposed and not yet confirmed
**   bytes 64 to 65    the count of frames that feed has kept, 16 bits, upper byte first
**   bytes 66 to 737   feed's window: 336 numbers of 16 bits, upper byte first
**
** A record there that propose would refuse counts as absent, wherever its bytes came from; all zero
** bytes are such a record. A damaged byte of a record is noticed only if the record is then out of
** range, and one of the window never: there is no checksum.
**
** Keep the state in working memory. After an entry store the two records, bytes 0 to 63, in
** permanent memory, and after a restart lend them again with 674 zero bytes behind them. Do not
** store the window: feed would put its frames before those that come after the restart. Do not lend
** permanent memory itself: a call that is cut off midway, as by a loss of power, may leave a record
** that is part old and part new. The firmware should write to the state in no other way, except
** that zeros in bytes 64 to 737 empty feed's window.
**
** A pending record that was stored can still be confirmed after a restart. To drop it, make an
** entry of length 0, which is refused with 5. To take all settings away, begin again with 738 zero
** bytes.
**
** Version 1 had a state of 64 bytes, to which a call now answers 17. With 674 zero bytes behind
** them they are a relay: the record in force stays in force, a pending one stays pending, and no
** frame is kept. Or read the record back with the old library, and propose and confirm it in a
** fresh relay.
**
** Version 2 had the state of this version and no second zone: offsets 26 and 27 of its records are
** zero. Such a state serves as it is: the second zone is off, and all else is as for a state of
** version 3. Only a record that version 2 counted as absent for these two bytes may be good now.
** The way back is another matter: by version 2 a record with a second reach counts as absent, and
** nothing is in force. So before going back, propose and confirm the record with a second reach of
** 0.
**
** Versions 3 to 5 had the state of this version, and records without R: in these, offsets 28 and 29
** are zero. Such a state serves as it is: R is 0, and the quadrilateral ground loops are off. Only
** a record that these versions counted as absent for R alone may be good now. The way back is the
** same matter as for version 2: by versions 3 to 5 a record with an R counts as absent. So before
** going back, propose and confirm the record with an R of 0.
**
** By version 4 the relay trips on balanced faults too: see BALANCED FAULTS, for load above all.
** Version 4.0 had no event files. A reader of event files is a slice of its own, and no part of the
** state; readers of versions 4.1 and 5 serve as they are, and the other way round.
**
** By version 5 bytes 5, 6 and 7 of a decision are not zero any more: see HOW FAR OFF THE SLOPE CAN
** BE. Firmware that compares whole decisions, or that took these bytes for zero, has to know it. In
** a decision that was stored by an older version, zeros there tell nothing.
**
** By version 6 byte 1 of a decision may also have the bits 8, 16 and 32, where R is not 0: see THE
** QUADRILATERAL GROUND LOOPS. Firmware that read byte 1 as phases has to mask it with
** GORSEPETAL_PHASES. With an R of 0 every byte of a decision is what it was by version 5. A byte 1
** that was stored by an older version has no bits but those of the phases.
**
** WHAT COMES BACK
**
** Each call but events_wanted gives back one number, 256 times the place plus the number of the
** table. GORSEPETAL_NUMBER and GORSEPETAL_PLACE take them apart: 776 is 8 at 3. GORSEPETAL_ stands
** before each name.
**
**   number  name                 when                                          place
**   0       DONE                 done                                          0
**   1       NO_SETTINGS          no settings in force                          0
**   2       OTHER_WINDOW_LENGTH  window of another length                      0
**   3       NO_ROOM              room below 32 bytes, or below one record      0
**   4       MISSING_SAMPLE       a sample is missing                           index of first
**   5       OTHER_ENTRY_LENGTH   entry not 32 bytes                            0
**   6       OUT_OF_RANGE         a field is out of range                       offset of field
**   7       NOTHING_PENDING      nothing is pending                            0
**   8       DIFFERS              confirmation differs                          offset of first
**   9       OTHER_FRAME_LENGTH   frame of another length                       0
**   10      TOO_FEW_FRAMES       fewer than 16 frames yet                      0
**   11      INSIDE_RECORD        event file ends inside a record               index of record
**   12      OTHER_NUMBER         sample number not one above the last          index of record
**   13      BAD_FILE             ends not 2 to 6, or above 96 status channels  0
**   17      NO_RELAY             state not 738 bytes, or reader not 160        0
**
** Who gives what, in the order of the checks; and each of these calls gives 0:
**
**   propose        17, 5, 6
**   confirm        17, 5, 7, 8
**   read_back      17, 1, 3
**   decide         17, 1, 2, 3, 4
**   feed           17, 1, 9, 3, 10, 4
**   events_open    17, 13
**   events_read    17, 13, 12, 11, 1, 9, 3, 10, 4
**   events_end     17, 13, 12, 11
**   events_write   13, 9, 3, 12
**
** Each number is given back in its own condition and in no other. These calls give no other
** number; 14 to 16 are not in use. Where several conditions hold, the first in the call's order of
** checks is given. In the place of 4 an index counts the window's numbers from 0; in those of 11
** and 12 it counts the file's records from 0. In those of 6 and 8 an offset counts a settings
** record's bytes. For 6 it is the first byte of a field, or a spare byte; for 8 it may be any
** byte.
**
** From events_write 3 means less room than one record takes, and not than 32 bytes, and 12 is at
** 0. Events_wanted gives back a count of bytes, and no answer of this table: 17 from it says that
** 17 bytes are missing.
**
** TWO ENTRIES
**
** A record comes into force only by two entries with no other entry between them. Decide, feed,
** read-back and the calls for event files are no entries and change no record, so they may come
** between; so may a call answered 17.
**
**                       propose, done                    confirm, done
**   +-----------+     ---------------->   +-----------+   ------------->   the record is in force,
**   |  nothing  |                         |    one    |                    and nothing is pending
**   |  pending  |     <----------------   |  pending  |   ---+
**   +-----------+     refused: 5, 6, 8    +-----------+      |  propose, done: the new entry
**    ^        |                                 ^------------+  is pending in place of the old
**    +--------+  refused: 5, 6, 7
**
**   propose, done (0)                the entry is pending, in place of any earlier pending record
**   propose, refused (5, 6)          nothing is pending
**   confirm, done (0)                the pending record is in force, nothing is pending, and feed's
**                                    window is empty
**   confirm, refused (5, 7, 8)       nothing is pending
**   17, from any call                nothing has changed: no relay was lent, or no reader
**
** The record in force stays until a confirmation is answered 0. No refusal removes it, and no
** proposal. After a mismatch both entries have to be made again: a third entry cannot confirm.
**
** SETTINGS RECORD
**
** 32 bytes, GORSEPETAL_RECORD_LENGTH, no header. All fields are 16 bits, upper byte first; those
** that say so are signed, in two's complement, and the others are not. The name in the second
** column follows GORSEPETAL_AT_.
**
**   at  name                      field                         unit            from    to
**   0   ENDS                      N, ends of the line           -               2       6
**   2   SLOPE                     K                             percent         1       100
**   4   PICKUP                    differential pickup           counts of peak  1       42000
**   6   REPLICA_REAL              replica Z, real part          0.001 V/I       0       20000
**   8   REPLICA_IMAGINARY         replica Z, imaginary part     0.001 V/I       1       20000
**   10  REACH                     reach r                       0.001 of Z      1       2000
**   12  K_REAL                    k, real part                  0.001           0       1000
**   14  K_IMAGINARY               k, imaginary part, signed     0.001           -500    500
**   16  ANGLE_REAL                line angle D, real part       0.001           0       1000
**   18  ANGLE_IMAGINARY           line angle D, imaginary part  0.001           0       1000
**   20  FORWARD_LIMIT             forward limit zf, signed      0.001 V/I       -20000  20000
**   22  REVERSE_LIMIT             reverse limit zr, signed      0.001 V/I       -20000  20000
**   24  NEGATIVE_SEQUENCE_PICKUP  pickup of 3I2                 counts of peak  1       42000
**   26  SECOND_REACH              second reach r2               0.001 of Z      0 or r  2000
**   28  RESISTIVE_REACH           resistive reach R             0.1 V/I         0       1000
**   30  -                         two spare bytes               -               0       0
**
** V/I is one voltage count per current count. It is NOT an ohm: the next section has the way from
** ohms.
**
** The squares of the two parts of D sum to 998000 at least and 1002000 at most; an error is
** reported at 18. zf is below zr; an error is reported at 22. r2 is 0, which switches the second
** zone off, or from r to 2000, r itself too; every error of it is reported at 26. R is 0, which
** switches the quadrilateral ground loops off, or from 1 to 1000; an error is reported at 28. The
** fields are checked in order of offset, and the rules at 18 and 22 right after the range there. A
** spare byte that is not zero is reported at its own offset, 30 to 31.
**
** UNITS
**
** The library knows counts and nothing else: it is told no volts, no amperes and no ohms. A count
** is the unit of a sample. A steady wave of peak p has a phasor of p counts, so pickups are peak
** values, not effective ones. Two figures of the firmware turn secondary values into settings:
**
**   cv   counts per volt: what one volt at the relay's terminals comes to in a sample
**   ci   counts per ampere at the relay's terminals of end 1
**
**   Z, zf, zr     thousandths of V/I, a voltage count per current count
**                 setting = 1000 x ohms(secondary) x cv / ci
**   R             tenths of V/I: setting = 10 x ohms(secondary) x cv / ci
**   r, r2         thousandths of Z: 800 reaches as far as 0.8 Z, and 1500 as far as 1.5 Z
**   k             1000 x (Z0 - Z1) / (3 Z1), a ratio: cv and ci have no part in it
**   D             1000 x (cos, sin) of the line angle, the angle of Z1
**   pickups       counts of peak = 1.4142 x ampere(secondary, effective) x ci
**   K             percent of the restraint, the sum of the magnitudes of the currents of all ends
**
** From primary values, with the ratios of end 1 (800/5 A is 160, 132000/110 V is 1200):
**
**   ampere(secondary) = ampere(primary) / CT ratio
**   ohms(secondary)   = ohms(primary) x CT ratio / VT ratio
**
** Settings are whole numbers. Round to the nearest. Where a bound has to be kept, round to its safe
** side: Z, r and R down, r2 up, and a pickup up if the current must not be lower.
**
** The mho rule uses the products r x Z and r2 x Z and nothing else of the three. Where Z1 comes to
** more than 20000, enter half of it as Z and twice the r: 1640 with Z1 / 2 is 820 with Z1. But r2
** ends at 2000, which with Z1 / 2 is 1000 with Z1 and no overreach. With 0.6 Z1 it is 1200 with Z1,
** and r is then 1367 in place of 820. Where r2 would come to more than 2000, enter a larger Z, and
** a smaller r and r2. The quadrilateral ground loops use r x Z too, and beside it the angle of Z
** alone, so R stays as it is. A zf or zr beyond 20000 is entered as 20000, with its sign.
**
** WARNING. No range can tell one unit from another. With cv / ci = 1/2 a replica entered in
** thousandths of an ohm is twice as large as it should be: propose and confirm both answer 0, and
** at r = 800 zone 1 reaches 160 percent of the line. With cv / ci above 1 it reaches too short. A
** zf or zr that is too large leaves faults without a direction. An R in tenths of an ohm is twice
** as wide as it should be. So work the settings out with cv and ci, let a second person do it too,
** and TEST THE RELAY before it guards the line.
**
** TESTS AT THE PANEL
**
** With a test set at end 1, the settings in force, and the other ends sending zeros: three voltages
** of magnitude E at their usual angles, but Va smaller; current Ia on phase a alone, small enough
** for that. In the test of a balanced fault all three phases are alike. All in secondary volts,
** amperes and ohms, with Z as it was entered (Z1, unless UNITS had you enter a part of it), k of
** the line, and r and r2 as fractions. The differential trips throughout: look at bytes 2, 3 and 4
** of the decision, and at others only where it is said.
**
**   - Reach: Ia behind Va by the angle of Z (1 + k), and Va = f x r x |Z (1 + k)| x Ia. In byte 2
**     GORSEPETAL_LOOP_AG has to be set at f = 0.95 and not at f = 1.05.
**   - Second reach, if it is not 0: the same with r2 for r. In byte 4 GORSEPETAL_LOOP_AG has to be
**     set at f = 0.95 and not at f = 1.05. In byte 2 it has to be clear at both, if 0.95 r2 is
**     above r. The lamp has to do as byte 4 does.
**   - Forward limit: Ia behind Va by the line angle, and Va = E - f x |zf| x Ia. The direction has
**     to be forward at f = 1.05 and none at f = 0.95.
**   - Reverse limit: the current turned round, and Va = E - f x zr x Ia. The direction has to be
**     reverse at f = 1.05 and none at f = 0.95.
**   - Quadrilateral, if R is not 0, with R in ohms: Ia behind the usual angle of Va by the line
**     angle, and Va = |m Z (1 + k) + F| x Ia, ahead of Ia by the angle of m Z (1 + k) + F. For the
**     sides let m = r / 2, and F = f x R, and then F = -f x R. For the top let m = f x r, and F be
**     half of R. In byte 1 GORSEPETAL_QUADRILATERAL_A has to be set at f = 0.95 and not at f =
**     1.05, each time. Then the same on the other phases, with their bits. In the two tests of the
**     limits all three bits have to be clear wherever the direction is none or reverse.
**   - Balanced fault: three voltages V at their usual angles, three currents I, each behind its
**     voltage by the angle of Z, and V = f x r x |Z| x I. Byte 2 has to be 63 at f = 0.95 and 0 at
**     f = 1.05, and byte 3 has to be 0 at both. With the currents turned round byte 2 has to be 0
**     at f = 0.95 too. To see the trip, propose and confirm the record with a K of 100, at which no
**     phase operates: byte 0 has to be 1 at f = 0.95 and 0 at f = 1.05.
**   - Pickup of 3I2, by the same record, if zf is below 0 and zr above: the balanced fault at f =
**     0.9, with Ia larger by a part x of the pickup. Byte 0 has to be 1 at x = 0.95 and 0 at x =
**     1.05, and byte 3 has to be 0 at both. Then enter the line's own K again, twice, and read it
**     back.
**   - Slope, for a K below 100, with a second test set at another end: p on phase a of end 1, and q
**     on phase a of the other, turned round. Let q = p (100 - x) / (100 + x): the differential is
**     then x percent of the restraint. Let p + q be 3000 counts of peak or more, and p - q above
**     the pickup. At x = K + 0.5 byte 5 has to be K, with GORSEPETAL_PHASE_A set in byte 1. At
**     x = K - 0.5 byte 5 has to be K - 1, with that bit clear. Half a percent of error in q / p is
**     no harm. Then the same on the other phases, with their bytes and bits.
**   - Currents, under a load of known primary size. Bytes 8 to 19, divided by 64, have to be its
**     peak counts, added up over the ends. Bytes 20 to 31, divided by 64, have to be no more than
**     the charging current in peak counts and what the transformers' errors add. An end that is
**     reversed or wrongly scaled shows here.
**
** Raise a current at one end, with none at the others, until its phase operates: that is the
** pickup. There c goes from 0 to 99 at once, in byte 5 for phase a, 6 for b, 7 for c, at every K.
**
** These tests do not find a transformer ratio that is wrong on paper, since it goes into the
** settings and into the test set alike. The load shows it for the currents; for the voltages
** nothing here does.
**
** WHAT EACH FIELD SHOULD BE
**
**   N    every end that sends its currents, the local one too. A tap that sends none is not an end:
**        set the pickup above the current that it takes. The relay at each end has a record of its
**        own, and is end 1 there.
**   K    percent, above what a current through the line can fake, below what a fault leaves that
**        has to trip. Current transformers with an error of e percent at every end fake at most e
**        percent. On two ends, clocks that differ by an angle d fake sin(d / 2): 9 percent for 10
**        degrees. Load that flows through a fault adds to the restraint alone, and a fault that
**        lets current out at an end leaves (in - out) / (in + out): 100 in and 40 out are 43
**        percent, which slope 15 sees and slope 50 does not. At 100 no phase ever operates: the
**        differential is off. From recordings: K is above the c of every current through the line,
**        and not above the c of any fault that has to trip. HOW FAR OFF THE SLOPE CAN BE has c.
**   pickup
**        above the charging current of the line, which flows in and not out again and is not
**        compensated here, and above what the error of the transformers adds to it; below the
**        smallest fault current that has to trip. Each component of an end's phasor is rounded by
**        half a count at most, so a differential of N ends is known to within 0.71 N counts.
**   Z, r the replica Z is Z1, the positive sequence impedance of the line from the relay to the far
**        end, and r the part of it that zone 1 covers, usually 800 to 850. There is no delay: a
**        loop that asserts trips if the direction is forward, and AB, BC and CA together trip where
**        3I2 is below its pickup. So r x Z has to stay below Z1, and it must not reach the largest
**        load: BALANCED FAULTS has the formula. With more than two ends take the far end with the
**        SMALLEST |Z1|: zone 1 then covers so many ohms on the way to every end, and the
**        differential covers all of the line. Beyond the tee, current that another end feeds in
**        makes a loop see a fault farther away than it is; current that an end lets out makes it
**        see the fault nearer, and r has to be smaller there. Distance cannot be switched off; r =
**        1 leaves a thousandth of the circles, and R = 0 takes the quadrilaterals away.
**   k, D of the line from the relay to that same end. A k beyond its range, as of some cables,
**        cannot be set; the ground loops then reach otherwise.
**   zf   the relay measures V2 / I2, its part along the line angle. For a fault ahead that is minus
**        Zb, the negative sequence impedance of the SOURCE BEHIND the relay. That is why zf is
**        negative: forward means below zf. Every Zb has to be told as forward, so -Zb < zf for the
**        strongest source, which has the smallest Zb; the largest plays no part. Usual is minus
**        half of it: zf = -Zb / 2. Where Zb can come near zero, zf goes up to zero or beyond.
**   zr   for a fault behind, V2 / I2 is plus Za, the impedance of what lies AHEAD: the line and the
**        sources at its far ends; with several ends, those are in parallel beyond the tee. zr < Za
**        for the smallest Za, with the strongest sources there; usual is zr = Za / 2. Where the
**        angle of Zb or Za is not the line angle, its part along it counts: its magnitude times the
**        cosine of the difference.
**   pickup of 3I2
**        It parts the faults that have a direction from those that count as balanced. Below 3I2 of
**        the smallest fault whose direction has to be asked: under the pickup it is not, and only
**        AB, BC and CA together trip. 3I2 is three times the negative sequence current: a fault
**        from one phase to ground with current I in that phase and none in the others has a 3I2 of
**        I.
**        Above the unbalance of the largest load. And above what a balanced fault within r shows of
**        it, or distance does not trip on that fault: current transformers with an error of e
**        percent make a 3I2 of up to 2e percent of its current, another frequency and the offset of
**        the first cycles more than that (LIMITS). Where both cannot be had, the first decides, and
**        balanced faults are left to the differential.
**   r2   0 if the panel has no lamp for it: the second zone is then off. Otherwise it has to
**        OVERREACH: to see every solid fault on the line, and so some beyond its ends. It is a lamp
**        only, and trips nothing: THE SECOND ZONE says what it shows. On a line of two ends r2 is
**        usually 1200 to 1500. With more ends Z is that to the NEAREST, and r2 has to cover the one
**        that seems FARTHEST. A fault there is seen at
**             Zs = Zt + Zx (1 + Io / I1)
**        where Zt leads to the tee and Zx from there to that end, I1 is the current of end 1 and Io
**        that of all ends but these two. Take Io / I1 at its largest: the weakest source behind end
**        1, the strongest at the others, and the sequence, positive or zero, in which it is larger.
**        Then r2 is 1200 x |Zs| / |Z| or more. The 200 above 1000 are for the errors of
**        transformers and of line data. Where the angle of Zs is not that of Z, divide by the
**        cosine of the difference. Where r2 comes to more than 2000, see UNITS.
**        The lamp must not light under load. All six loops see a load at V / I, V from phase to
**        ground, and they assert if this is not above r2 x |Z| x cos(line angle - load angle). Here
**        r2 is a fraction, and the load angle is that by which the current is behind the voltage.
**        So V / I has to be larger than this at the largest load and the lowest voltage. Where r2
**        cannot do both, the load decides: a lamp that is lit under load tells nothing.
**   R    0 if faults with resistance are left to the differential. Otherwise see THE QUADRILATERAL
**        GROUND LOOPS, which trip: what R has to cover, what it must stay short of, and what the
**        firmware has to ask before it passes such a trip on.
**
** CONVENTIONS
**
**   - Rotation is ABC: Vb lags Va by 120 degrees.
**   - Voltages are phase to ground, of end 1.
**   - Currents are positive INTO THE LINE, at every end. A load current through a line of two ends
**     has opposite signs at its two ends, and the sum over all ends is what the line itself takes.
**   - A count of current is the same primary current at every end. Where an end has another
**     transformer ratio or another ci, the firmware multiplies its samples by (CT ratio / ci) of
**     that end over (CT ratio / ci) of end 1, to the nearest whole number: a transformer of 300/1 A
**     beside one of 600/1 A at end 1 gives 1/2. A missing sample stays -32768 and is not scaled;
**     what would leave -32767 to 32767 is clipped there.
**   - The largest current has to fit, with its offset: 32767 counts are 32767 / (1.4142 ci)
**     amperes, and half of that where the offset is full.
**   - All samples of a frame are of one moment. Clocks are aligned before decide or feed is called.
**
** A current transformer that is reversed at one end looks like this. Under load the differential
** is twice that end's current. On a line of two ends that is 100 percent of the restraint, so the
** phase operates at every slope up to 99 as soon as its pickup is reached, and its c reads 99. With
** one phase reversed at end 1, 3I2 is twice that phase's load current, so a direction may appear
** under load. With all three reversed at end 1, T has the other sign: a fault ahead looks like one
** behind. So does a balanced one, and one behind may trip.
**
** A LINE OF THREE ENDS, WORKED OUT
**
** 50 Hz; all values secondary, at end 1. The firmware has cv = 100 counts per volt and ci = 200
** counts per ampere, so cv / ci = 0.5.
**
**   given                                             setting
**   three ends                                        N    = 3
**   slope 30 percent                                  K    = 30
**   differential pickup 0.2 A                         57   (1.4142 x 0.2 x 200 = 56.57)
**   Z1 to the far end where it is smallest:
**   0.8 + j 4.0 ohm                                   Z    = 1000 x 0.5 x .. = 400 + j 2000
**   zone 1 covers 80 percent of it                    r    = 800
**   Z0 of the same part: 2.0 + j 11.6 ohm             k    = 1000 x (1.2 + j 7.6) / (2.4 + j 12.0)
**                                                          = 628 + j 26
**   line angle: that of 0.8 + j 4.0, 78.69 degrees    D    = 1000 (0.1961, 0.9806) = 196 + j 981
**   smallest Zb, of the source behind: 0.9 ohm        zf   = -0.45 ohm = -1000 x 0.45 x 0.5 = -225
**   smallest Za, of what lies ahead: 2.6 ohm          zr   = +1.3 ohm = 1000 x 1.3 x 0.5 = 650
**   pickup of 3I2 0.1 A                               28   (1.4142 x 0.1 x 200 = 28.28)
**   Zs of the far end that seems farthest:
**   1.0 + j 5.0 ohm
**   the second zone covers 120 percent of it          r2   = 1200 x 5.099 / 4.079 = 1500
**   faults to ground of 2 ohm, half of whose current
**   comes from the other ends: 4 ohm                  R    = 10 x 4 x 0.5 = 20
**
** As 32 bytes, two a field:
**
**   0003 001E 0039 0190 07D0 0320 0274 001A 00C4 03D5 FF1F 028A 001C 05DC 0014 0000
**
** In thousandths of an ohm Z would have been 800 + j 4000: a good record too, and a reach of 160
** percent of the line.
**
** The lamp under load: along the line angle the second zone ends at 1.5 x 4.079 = 6.12 ohm. At a
** load angle of 30 degrees it ends at 6.12 x cos(78.69 - 30) = 4.04 ohm. So at 50 V the lamp stays
** dark up to 12.3 A.
**
** The trip under load: along the line angle the first zone ends at 0.8 x 4.079 = 3.26 ohm. At a
** load angle of 30 degrees it ends at 3.26 x cos(78.69 - 30) = 2.15 ohm. So at 50 V load does not
** trip up to 23.2 A.
**
** The pickup of 3I2 is for faults that have a direction. A balanced fault of 10 A in which one
** transformer errs by 1 percent has a 3I2 of 0.1 A, and distance does not trip on it: the
** differential does.
**
** WINDOW
**
** One cycle of samples, 16 frames in time order, the oldest first: 800 frames a second at 50 Hz,
** 960 at 60 Hz. Each frame has Va, Vb, Vc, then Ia, Ib, Ic of end 1, the local end, then of end 2,
** and so on up to end N. Each sample is a signed number of 16 bits, two's complement, upper byte
** first. So a window has 16(3 + 3N) numbers, and twice as many bytes, GORSEPETAL_WINDOW_BYTES(N):
**
**   N         2     3     4     5     6
**   numbers   144   192   240   288   336
**   bytes     288   384   480   576   672
**
** The indexes of a window of three ends, GORSEPETAL_CHANNELS(3) = 12 numbers a frame:
**
**                 voltages      end 1         end 2         end 3
**                 Va  Vb  Vc    Ia  Ib  Ic    Ia  Ib  Ic    Ia  Ib  Ic
**   frame 0        0   1   2     3   4   5     6   7   8     9  10  11
**   frame 1       12  13  14    15  16  17    18  19  20    21  22  23
**   ..
**   frame 15     180 181 182   183 184 185   186 187 188   189 190 191
**
** The number of frame f and channel c, both counted from 0, has the index (3 + 3N)f + c, and its
** two bytes begin at twice that. A window may begin at any frame, and windows may overlap. The
** number -32768, GORSEPETAL_MISSING, bytes 80 00, marks a missing sample; it serves for frames that
** have not come yet, too. A converter has to clip at -32767 and 32767: see LIMITS.
**
** FRAME BY FRAME
**
** Feed is for firmware that has one frame every sample time. It is handed the newest frame, 3 + 3N
** numbers in GORSEPETAL_FRAME_BYTES(N) bytes, and keeps it in the state. Then it gives back what
** decide would for the newest 16 frames, the oldest first: the same number, place and 32 bytes.
**
** In the state the first 16(3 + 3N) of the 336 numbers are 16 frames. With each frame that is kept
** they move on: the oldest goes, and the newest stands last. The numbers behind stay as they were
** and have no part in a decision. For two ends:
**
**   bytes   64 to 65    66 to 83          84 to 101   ..   336 to 353         354 to 737
**           the count   frame 0, oldest   frame 1          frame 15, newest   behind
**
** A confirmation answered 0 empties the window: the count and all 336 numbers are 0. Feed answers
** 10 to the next 15 frames, and decides at the 16th. So after a confirmation in service there is no
** decision by feed for 15 sample times, 18.75 ms at 50 Hz and 15.625 ms at 60 Hz. Decide is not
** affected: its window is lent.
**
** A frame with a missing sample is kept too. Feed answers 4 for as long as the sample is among the
** 16, which is 16 frames in a row, and its place falls by 3 + 3N with each. A sample that is
** missing in one of the first 15 frames shows at the 16th: 10 stands before 4.
**
**   uint8_t frame[GORSEPETAL_FRAME_BYTES(2)], out[GORSEPETAL_DECISION_LENGTH];
**
**   while (next_frame(frame)) {           (waits for the sample time)
**     uint64_t given = gorsepetal_feed(relay, sizeof relay, frame, sizeof frame, out, sizeof out);
**     switch (GORSEPETAL_NUMBER(given)) {
**     case GORSEPETAL_DONE:               (decided, on this frame and the 15 before it)
**       trip(out[GORSEPETAL_DECISION_AT_TRIP]);
**       lamp(out[GORSEPETAL_DECISION_AT_SECOND_ZONE] != 0);
**       break;
**     case GORSEPETAL_TOO_FEW_FRAMES:     (kept: the window fills)
**     case GORSEPETAL_MISSING_SAMPLE:     (kept: GORSEPETAL_PLACE(given) says which is missing)
**       no_decision(given);
**       break;
**     default:                            (17, 1, 9, 3: not kept)
**       not_kept(given);
**     }
**   }
**
** After 0, 4 and 10 go on with the next frame. After 17, 9 and 3 hand the same frame over again, in
** its own sample time: with all 738 bytes of the state, with the 3 + 3N numbers for the N that
** read_back shows, with 32 bytes of room. After 1 a record has to be proposed and confirmed.
**
** Feed has no clock. It takes the frames that it is handed for neighbours, and does not notice one
** that it was never handed. In the place of a lost frame hand over one of missing samples alone: 4
** comes for 16 frames. After a longer gap write zeros to bytes 64 to 737: 10 comes for 15 frames.
**
** EVENT FILES
**
** Utilities send the recording of a fault as C37.111-1999 (COMTRADE) files: a configuration file,
** which is text and has the ending .cfg, and a data file, .dat. The library reads and writes
** binary data files. It opens no file: the caller lends it the bytes, cut anywhere. What the .cfg
** says is outside the library; which of its lines a caller needs stands at the end of this
** section.
**
** A binary data file is one record after the other, and nothing else. A record here is one frame
** with a number and a time. With N ends and S status channels:
**
**   bytes               content, all with the low byte first
**   0 to 3              sample number, 32 bits: 1 in the first record, one more in each after it
**   4 to 7              time, 32 bits
**   8 to 13             Va, Vb, Vc: 16 bits each, two's complement
**   14 to 19            Ia, Ib, Ic of end 1
**   ..
**   8 + 6N to 13 + 6N   Ia, Ib, Ic of end N
**   14 + 6N on          status channels: a bit each, in groups of 16 bits
**
** The analog channels are the frame, in the order of WINDOW. A frame has the upper byte of a
** number first and a file the lower; the library turns them. The standard's mark for missing data,
** 8000 hex, is -32768, so the bytes 00 80 are a missing sample. There is a group for each 16
** status channels begun: none for 0, one for 1 to 16, two for 17 to 32, six for 81 to 96. So a
** record has GORSEPETAL_EVENTS_RECORD_BYTES(N, S) bytes:
**
**   N                    2     3     4     5     6
**   no status channels   26    32    38    44    50
**   96 status channels   38    44    50    56    62
**
** Status bits and times are not looked at. Any time is good.
**
** A reader is 160 bytes that the caller owns, GORSEPETAL_EVENTS_LENGTH: how far a file has been
** read. It is state, as the relay's is, and a slice apart from it. Events_open puts it at the
** start of a file, whatever it held. All zero bytes are a reader that was never opened.
**
**   byte 0            ends
**   byte 1            status channels
**   byte 2            what ended the reading: 0 nothing, 11 or 12
**   byte 3            how many bytes of the record being read are in hand
**   bytes 4 to 7      index of the record being read, from 0, low byte first
**   bytes 8 to 11     time of the last whole record, upper byte first
**   bytes 12 to 53    its frame, each number with the upper byte first: 2(3 + 3N) bytes of these
**   bytes 54 to 55    not used
**   bytes 56 to 159   the bytes in hand, of which a record takes 62 at most
**
** After each whole record its time stands at GORSEPETAL_EVENTS_TIME and its frame at
** GORSEPETAL_EVENTS_FRAME, also after one that feed refused, until the next is whole. The caller
** should write to a reader in no other way than by these calls. All the same, any 160 bytes have a
** meaning. If byte 2 is 12 or 11, the reading has ended with that number, at the index of bytes 4
** to 7. Otherwise, if byte 2 is 0, ends are 2 to 6, status channels at most 96, and byte 3 is
** below the record's length, the reading goes on. All others have ended with 13.
**
** The loop, with a relay in which settings are in force, for a file of two ends without status
** channels:
**
**   uint8_t reader[GORSEPETAL_EVENTS_LENGTH], out[GORSEPETAL_DECISION_LENGTH];
**   uint64_t given = gorsepetal_events_open(reader, sizeof reader, 2, 0), wanted;
**
**   while ((len = next_piece(&bytes)) > 0)   (a piece of the file, of any length)
**     while (len > 0 && (wanted = gorsepetal_events_wanted(reader, sizeof reader)) > 0) {
**       given = gorsepetal_events_read(relay, sizeof relay, reader, sizeof reader, bytes, len,
**                                      out, sizeof out);
**       if (len < wanted)
**         break;                           (0: taken, the record is not whole yet; or 12)
**       switch (GORSEPETAL_NUMBER(given)) {
**       case GORSEPETAL_DONE:              (decided, on this record's frame and the 15 before it)
**         decided(reader + GORSEPETAL_EVENTS_TIME, out);
**         break;
**       case GORSEPETAL_OTHER_NUMBER:      (ended: from here on wanted is 0)
**         break;
**       default:                           (1, 9, 3, 10, 4: feed's, and the reading goes on)
**         no_decision(given);
**       }
**       bytes += wanted;                   (the rest is handed over again)
**       len -= wanted;
**     }
**   given = gorsepetal_events_end(reader, sizeof reader);
**   if (given != GORSEPETAL_DONE)
**     not_all_read(given);                 (11, 12 or 13)
**
** So go on while bytes are left and wanted is above 0. Events_read takes as many of the bytes lent
** as are wanted, and no more; the caller hands the rest over again. Who lends fewer bytes than
** wanted knows that 0 means "taken", and who lends as many knows that 0 means "decided". However a
** file is cut, each record gets the same answer and the same decision, and the reading ends in the
** same way.
**
**   answer        what it means                                                  the reading
**   0             the bytes are taken; or the record's frame is decided on       goes on
**   10, 4         the record's frame is kept, but there is no decision           goes on
**   1, 9, 3       the record is read, but its frame is not kept                  goes on
**   12 at index   the record's sample number is not one above the last           has ended
**   11 at index   the file ended inside this record: from events_end             has ended
**   13 at 0       ends not 2 to 6, above 96 status channels, or never opened     has ended
**   17            a slice of another length: no byte is taken                    as it was
**
** Where a reading has ended, events_read and events_end give the same refusal again and change
** nothing, and wanted is 0. Events_open begins anew. Feed's refusals do not end it: each whole
** record is answered as feed answers its frame, in feed's order, and the next one is read. After
** 1, 9 and 3 the relay has not kept the frame; the reader shows it.
**
**   - 12 comes as soon as the four bytes of the number are there, so also from a piece that does
**     not finish the record. The first number is 1. The last is 4294967295: behind it no number is
**     one above, and a record more is 12 at 4294967295.
**   - 11 comes from events_end alone, with one byte of a record in hand or more. Between two
**     records, and for a file without bytes, events_end answers 0 and changes nothing: should more
**     bytes come, they are read on.
**   - 13 comes from events_open, and from then on from the others. Ends and status channels are
**     whole 64-bit numbers: 65538 ends are 13, and not 2.
**   - 9 comes for each record where the file's ends are not the N of the record in force. It is
**     not 13: the file itself is good.
**
** Several files may go through one relay, one after the other. A new file does not empty the
** window; only a confirmation does. So the first 15 records of a file are decided on together with
** frames of the file before. For a file that stands alone, propose and confirm the record again,
** or lend a fresh relay in which that was done, or write zeros to bytes 64 to 737 of the state, as
** FRAME BY FRAME says: 10 comes for 15 records. Files that are read by turns take a relay and a
** reader each. Do not lend the relay that guards the line: the frames of the file would go into
** its window. A file has to be read once only to know what every slope would have made of it: HOW
** FAR OFF THE SLOPE CAN BE.
**
** A file that was damaged is noticed by its numbers. Where a record before the last is missing,
** and in nearly every case where a byte was lost or put in, the next number is not one above the
** last: 12. What lies behind it is not read. A record that is cut at the end of the file is 11.
** What was decided up to there stands. LIMITS has what is not noticed.
**
** The writer makes a record without status channels from a frame, as feed takes it, and a time. It
** is told how many records came before, so that the numbers begin with 1:
**
**   uint8_t record[GORSEPETAL_EVENTS_RECORD_BYTES(2, 0)];
**   uint64_t written;
**
**   for (written = 0; next_frame(frame, &time); written++) {
**     if (gorsepetal_events_write(2, written, time, frame, sizeof frame, record, sizeof record) !=
**         GORSEPETAL_DONE)
**       break;
**     append(record, sizeof record);       (to the file)
**   }
**
** Reading what it wrote gives the same frames and times. Writing what was read gives the same
** bytes, if the file has no status channels and the reading was answered 0 at its end. The time to
** write is then that of bytes 8 to 11 of the reader, and the frame lies at reader +
** GORSEPETAL_EVENTS_FRAME.
**
** The .cfg as C37.111-1999 has it, line by line:
**
**   lines         what they have               what to take from them
**   1             station, device, year        the year has to be 1999
**   2             TT,##A,##D                   of all TT channels, A analog and D status channels:
**                                              N = (A - 3) / 3, and D is the status count
**   the next A    number, name, phase,         which channel it is; its value is a x number + b,
**                 circuit, unit, a, b, ..      in its unit
**   the next D    one a status channel         nothing
**   the next      line frequency               50 or 60
**   the next      number of sampling rates     it has to be 1
**   the next      samp,endsamp                 samp, samples a second, has to be 16 x frequency;
**                                              endsamp is the number of the last record
**   the next 2    time stamps                  when the first sample was, and the trigger
**   the next      file type                    it has to say BINARY
**   the last      timemult                     time x timemult is in microseconds
**
** None of this can be told from the data. So it has to be checked outside: that N comes out whole
** and from 2 to 6, that there is one rate, 16 x frequency (800 samples a second at 50 Hz, 960 at
** 60 Hz), and that the type is BINARY. The channels have to be in our order, and in counts: the
** factors a and b are outside. If each b is 0, and a is the same for all voltages, and the same
** for all currents in primary amperes, the numbers are counts as they are: with 1 / a in place of
** cv and of ci the settings fit the file. Otherwise the caller has to order and scale the numbers
** before they are read; 8000 hex is not scaled. A record's time counts from the first sample, in a
** unit that timemult scales: with a timemult of 1 it counts microseconds, and at 50 Hz grows by
** 1250 a record.
**
** DECISION
**
** 32 bytes, GORSEPETAL_DECISION_LENGTH. U is the restraint of a phase and s the squared magnitude
** of its differential; RULES has the formulas. U and the root of 4096 s are both in
** sixty-fourths of a count. c is the slope at which a phase changes, in percent.
**
**   bytes      content
**   0          trip: 1 or 0
**   1          the phases whose differential operates, added up: a=1, b=2, c=4; and to these the
**              quadrilateral ground loops that operate: A=8, B=16, C=32
**   2          the loops that assert, added up: AG 1, BG 2, CG 4, AB 8, BC 16, CA 32
**   3          direction: 0 none, 1 forward, 2 reverse
**   4          the loops that assert in the second zone, added up as in byte 2; 0 where r2 is 0
**   5          c of phase a, 0 to 99: the phase operates at the slopes 1 to c, and at no other
**   6          the same of phase b
**   7          the same of phase c
**   8 to 11    U of phase a, 32 bits, upper byte first
**   12 to 15   U of phase b
**   16 to 19   U of phase c
**   20 to 23   floor of the root of 4096 s of phase a, 32 bits, upper byte first
**   24 to 27   the same of phase b
**   28 to 31   the same of phase c
**
** Byte 1 has two things in it. Masked with GORSEPETAL_PHASES it is the phases, and with
** GORSEPETAL_QUADRILATERALS the quadrilateral ground loops; it is 0 to 63. Where R is 0 it is the
** phases alone.
**
** Why a relay has tripped can be read from the decision. More than one reason may hold at a time:
**
**   byte 1 & GORSEPETAL_PHASES is not 0           the differential of these phases operates
**   byte 1 & GORSEPETAL_QUADRILATERALS is not 0   a fault to ground ahead; byte 3 is 1
**   byte 3 is 1, and byte 2 is not 0              a fault ahead, in the first zone
**   byte 3 is 0, and byte 1 is 0 too              a balanced fault, in the first zone; byte 2 is
**                                                 56 to 63
**
** If byte 1 is not 0 and byte 3 is 0, the decision does not tell whether the rule for balanced
** faults held too. The same window decided with a K of 100 does: byte 0 is then by distance alone.
**
** BALANCED FAULTS
**
** A fault of all three phases alike has no negative sequence, and so no direction: byte 3 reads 0.
** Distance trips on it by a rule of its own, document 02's CR 4: 3I2 is below its pickup, and AB,
** BC and CA all assert in byte 2. The ground loops and the second zone have no part in it. Where
** 3I2 reaches its pickup this rule is out, whatever byte 3 reads: with T between the limits, byte 3
** reads 0 and distance does not trip.
**
** No direction is asked, no least current and no least voltage. What follows from that has to be
** seen to before version 4 guards a line:
**
**   - LOAD is balanced. All six loops see it at V / I, V from phase to ground, and it trips if this
**     is not above r x |Z| x cos(line angle - load angle). Here r is a fraction, and the load angle
**     is that by which the current is behind the voltage. So V / I has to be larger than this at
**     the largest load and the lowest voltage. Where r cannot cover its part of the line and stay
**     short of the load, the load decides. Up to version 3 such a load tripped nothing. A swing of
**     power that comes as near trips too: nothing here tells it from a fault.
**   - BLOWN FUSES. With one voltage lost, one of the three loops still sees load at V / I, and it
**     trips as said before. With two lost, none of them sees it farther than at half of V / I: it
**     trips at half the current. With all three lost and nothing left, no loop asserts; but if a
**     count of noise is left, any load may trip. Firmware that can tell that a voltage is lost has
**     to hold back a trip in which no phase operates: byte 1 & GORSEPETAL_PHASES is 0.
**   - A LINE THAT IS OFF. Noise of a few counts in all channels may trip now and then. Where a trip
**     must not come then, the firmware has to ask for a current before it passes on one in which no
**     phase operates.
**   - NEXT TO THE RELAY. A balanced fault that leaves no voltage at all asserts no loop, since
**     there is no polarising memory: distance does not trip on it. The differential can. If noise
**     is left of the voltages, the sign of m is chance, and distance may trip now and then, on a
**     fault at the busbar behind as on one ahead.
**   - BEHIND THE RELAY. The sign of m alone tells behind from ahead. A solid fault behind that the
**     far ends feed, and that leaves a voltage well above the noise, has a negative m and does not
**     trip. One close behind with a little resistance, as of an arc, may assert all six loops while
**     load flows in from the far ends: then distance trips on it. On the line worked out above,
**     with j 0.9 ohm behind the relay and j 1.5 ohm beyond the far end, 0.1 ohm at the busbar
**     behind trips if the far source is ahead by 20 degrees, and not if it is ahead by 10. Where
**     that must not be, the firmware has to ask for a least voltage before it passes on a trip in
**     which bytes 1 and 3 are 0, or leave all balanced faults to the differential.
**   - NOT QUITE BALANCED. Below the pickup of 3I2 a fault counts as balanced, and its direction is
**     not asked. At the pickup, direction alone decides. A balanced fault has a 3I2 at first, from
**     the offsets of its currents, and while that reaches the pickup this rule is out: LIMITS has
**     the figures.
**
** THE SECOND ZONE
**
** Byte 4 has the six loops of byte 2 at the second reach, r2. It is for a lamp on the panel, which
** is lit after an answer of 0 if byte 4 is not 0. It does not trip: byte 0 and all other bytes are
** the same at every r2. It has no timer. After a refusal out still holds the decision before; what
** the lamp does then is the firmware's matter.
**
** The quadrilateral ground loops have no second zone: they go by r. r2 is not below r. So where the
** second zone is on, a loop that asserts in byte 2 asserts in byte 4 too:
**
**   byte 2   byte 4   what the loops see
**   0        0        no fault within r2; or, if r2 is 0, none within r
**   0        not 0    a fault beyond r and within r2: towards a far end, or beyond it
**   not 0    not 0    a fault within r
**   not 0    0        a fault within r; r2 is 0, and the second zone is off
**
** Byte 4 does not tell which phases have the fault: at a larger reach other loops see it too. It
** goes by no direction: that is byte 3. So it shows a balanced three-phase fault too, and, under
** load, a voltage that is lost to a blown fuse. Of a fault BEHIND the relay it shows this:
**
**   - The loops of the phases that have the fault, if it is solid and the far ends feed it, do not
**     assert: their m is negative. If no far end has a source or an earthed neutral, load may flow
**     in on these phases. Then m is positive, and if the fault is close by, n is next to 0 and they
**     assert in both zones.
**   - A ground loop of another phase may, since E makes its m positive. On a line of two ends, with
**     Z = Z1, its own k and little load, it sees the fault at about 3 Z or farther, and no r2
**     reaches that. With more ends, strong sources beyond a near tee can bring it within r2.
**   - A balanced fault close behind, with a little resistance, may assert all six in both zones
**     while load flows in from the far ends. Then distance trips on it too: BALANCED FAULTS.
**
** A lamp that has to stay dark in the first two cases is lit only if byte 3 is not
** GORSEPETAL_DIRECTION_REVERSE, which takes a 3I2 at its pickup. In the third nothing here can
** tell.
**
** THE QUADRILATERAL GROUND LOOPS
**
** A fault to ground with resistance, as through an arc or the soil around a cable, may lie outside
** the circles of the mho loops, which byte 2 reports. Where R is not 0, each of the three ground
** loops has a quadrilateral beside its circle (document 02, CR 7, after source document 002). In
** byte 1 GORSEPETAL_QUADRILATERAL_A, GORSEPETAL_QUADRILATERAL_B and GORSEPETAL_QUADRILATERAL_C say
** which of them operate, and each of them trips. All other bits and bytes but the trip are the same
** at every R.
**
**   top       the reactance test, X > 0: the fault is nearer than r x Z, whatever its resistance
**   2 sides   10 |n| <= R |q|: its resistance is not above R, nor below -R, as the loop sees it
**   bottom    the direction is forward: byte 3 is 1
**
** RULES has X, n and q. V, I and Z are those of the circles, and r is the first reach. Ir, the sum
** of Ia, Ib and Ic, is the residual current of end 1, and the same for all three loops. On the top
** itself a loop does not operate, and on a side itself it does. A larger R keeps each bit that is
** set. Where Ir is 0, none is set.
**
** WHAT IT MEASURES. A fault at a part m of Z, through a resistance F in V/I, has V = m Z I + F Ir,
** if what flows through F is Ir alone (Equation 2 of source document 002). Then n = F q, and X = (m
** - r) q, with m and r in thousandths. In the loop of the fault Z I is ahead of Ir, so q is below
** 0. Then the loop operates exactly if R is not 0, the direction is forward, m is below r, and F is
** from -R / 10 to R / 10. The resistance does not move the top, nor the distance the sides. Where
** load, or the fault of another phase, turns Z I behind Ir, q is above 0 and the top is upside
** down: the loop operates on what it sees beyond r.
**
** What resistance a fault had can be read from its recording: decide on it with one R after the
** other, in a relay that guards no line. The least R that sets the bit is the resistance that this
** loop sees, in tenths of V/I, rounded up, and 1 at least.
**
** A quadrilateral needs no polarising voltage, and so no memory of one. In a solid fault next to
** the relay, where V is 0, it operates. Where 3V1 is 0 it may operate, and no circle can. But it
** needs a direction. Below the pickup of 3I2, and with T between the limits, none operates. So that
** pickup has to be below the 3I2 of the weakest fault that R is to cover. With no voltage at all T
** is 0, and the direction is forward only if zf is above 0.
**
** THE UNIT OF R is a tenth of V/I: R = 10 allows one voltage count for each count of Ir. UNITS has
** the way from ohms. With cv / ci = 0.5, R = 20 is 4 ohm, and its range is 0.2 to 200 ohm.
**
** HOW TO CHOOSE R, in secondary volts, amperes and ohms:
**
**   - Infeed. R has to cover F x |If / Ir|, where If is all of the current through the resistance,
**     from every end. If the other ends feed as much as end 1, the fault looks twice as far to the
**     side. Where If and Ir differ in angle, the top is tilted: a fault at m is seen at about m + F
**     x Im(If / Ir) / Im[Z (1 + k)]. On the line worked out above, with F = 2 ohm and an If of
**     twice Ir and 10 degrees behind it, that is 0.106 of Z nearer than it is. There r has to be so
**     much smaller.
**   - Load. Balanced load has no Ir and no 3I2, and so sets no bit. But with one phase open it has
**     both, and the loop of that phase sees it at V / I x sin(line angle - load angle) / sin(line
**     angle). Where that can be, R has to be below this at the largest load and the lowest voltage.
**     On the line worked out above, with R = 20, at 50 V and a load angle of 30 degrees, such a
**     load sets no bit up to 9.5 A.
**   - Sound phases. In a solid fault of one phase, with little load, the loops of the other two see
**     about 0.87 E / (Ir x sin(line angle)), E being a sound voltage. R has to be below this for
**     the largest Ir of a fault beyond the line. On the line worked out above, fed from end 1 alone
**     through j 0.9 ohm in each sequence, a solid fault at the far end has an Ir of 7.66 A: 6.7
**     ohm.
**
** WARNING. No loop has a bottom of its own: the direction is one for all three. To the loop of a
** sound phase most faults ahead seem to lie behind, so the top lets them pass however far away they
** are, and the sides alone hold them back. Two kinds of fault pass these too. A fault of two phases
** to ground: the loop of the third sees next to no resistance. And where the line angle is above 60
** degrees, a fault of one phase with much resistance: the loop of the phase behind it, as b is
** behind a, sees the less the more it has, down to none. On the line above, fed as above, with R =
** 20: a solid fault of b and c to ground at three times Z sets A; a fault of a at the far end sets
** B if it has 8 to 28 ohm.
**
** So with any R but 0 the relay can trip on faults beyond the line, unless the firmware asks for
** more. A fault on the line has a differential in its phase, and a fault beyond has none but the
** charging current and what transformer errors add. So before the firmware passes on a trip by
** these loops alone, in which byte 1 & GORSEPETAL_PHASES and byte 2 are 0, it has to ask for a
** differential in the phase of the bit: bytes 20 to 23 for A, 24 to 27 for B, 28 to 31 for C.
** examples/resistive.c does so.
**
** HOW FAR OFF THE SLOPE CAN BE
**
** Bytes 5, 6 and 7 have a number c for each phase (document 02, CR 6): with all else equal, the
** phase operates at the slopes 1 to c and at no other. For each window there is one such number. It
** is where the phase changes: at slope c it operates, and at slope c + 1 it does not.
**
**   c         what it says of the phase
**   0         it operates at no slope: the differential is below the pickup, or at most 1 percent
**             of the restraint
**   1 to 98   it operates up to slope c
**   99        it operates at every slope but 100, at which no phase does
**
** The phase's bit in byte 1 is set exactly if K is at most c.
**
** The paper mill: 100 counts flowed into the line at end 1, and 40 out of it at end 2. The slope
** was said as 15 and heard as 50, which is 35 off. This fault has c = 42. So a slope up to 27 too
** large would still have operated: 42 does, and 43 does not.
**
** So the question has two answers:
**
**   - Of a fault that has to trip: K can be up to c - K too large.
**   - Of a current through the line that must not trip: K can be up to K - c - 1 too small, since
**     at slope c it operates.
**
** c does not depend on K. A decision that was taken at a wrong slope has the same c as at the right
** one, so it still tells what the right one would have done. One recording answers for all slopes,
** be it handed to decide or feed once more, or read as an event file. Decide on it with a K of 100,
** in a relay that guards no line: no phase operates then, and byte 0 is by distance alone. At a
** slope of x the relay would have tripped exactly if byte 0 is 1, or one of bytes 5 to 7 is x or
** more.
**
** Of the record c depends on N and on the pickup alone: below the pickup it is 0. To see c of a
** smaller differential, decide on it with a pickup of 1, in a relay that guards no line.
**
** At the panel: inject currents, read c, and compare it with 100 x differential / restraint. With p
** into the line at one end, q out of it at another, in phase, and none elsewhere, that is
**
**   x = 100 (p - q) / (p + q)
**
** and c is the largest whole number below x. At a slope of x itself the phase does not operate:
**
**   p     q    x       c
**   100   40   42.86   42
**   90    30   50      49
**   100   0    100     99
**
** From a decision: let D be the number of bytes 20 to 23 and U that of bytes 8 to 11, for phase a.
** If the pickup is reached and U is above 100, c is the largest whole number below 100 D / U, or
** one more than that, since D was rounded down. For 100 and 40 they are 3840 and 8960.
**
** c is of this window and of its rounded phasors. The currents before rounding agree with it within
** one and a half counts an end. Their differential is at least c percent of their restraint, less
** 1.5 N counts. Where the pickup is reached, it is at most c + 1 percent of it, and 1.5 N counts
** more. Of a restraint of W counts these counts are 150 N / W percent. For the mill, with 140
** counts at two ends, that is 2.1 percent, and for 3000 counts it is 0.1. So with few counts c
** tells little. A steady wave of the mill's currents has c = 42 in some windows and c = 43 in
** others.
**
** As formulas, with A and B an end's sums before rounding, and m any whole number from 1:
**
**   L = the sum over the ends of the floor of the root of m^2 (A^2 + B^2), H = L + N
**   F = the floor of the root of m^2 ((sum of all A)^2 + (sum of all B)^2)
**   for every m: 100 (F + 1 + 196608 N m) > c L
**   for every m, if s >= pickup^2: 100 F < (c + 1) H + 19660800 N m
**
** In the first cycle of a fault c changes from frame to frame, as the fault fills the window. Take
** it from windows that lie wholly in the fault. An offset that decays moves c too, as it moves the
** magnitudes: LIMITS.
**
** c says nothing of distance, of direction or of the trip: with c = 0 in all phases the loops may
** still trip.
**
** RULES
**
** All in whole numbers; settings stand in the formulas as the numbers of the record. A complex
** number is (x, y); (x, y)(u, v) = (xu - yv, xv + yu); Re(p q*) of p = (x, y) and q = (u, v) is
** xu + yv; |p|^2 = Re(p p*). "By d": what stands before it is formed whole, with its sign, and each
** component is then divided by d to the nearest whole number; a tie goes up: floor((x + d/2) / d).
**
** Phasor of a channel with samples x[0] to x[15], in counts of peak:
**
**   C[n]   16384 15137 11585 6270 0 -6270 -11585 -15137
**          -16384 -15137 -11585 -6270 0 6270 11585 15137
**   S[n]   C[(n + 12) mod 16]
**   phasor (sum of x[n] C[n], minus the sum of x[n] S[n]) by 131072
**
** Sequence quantities, of end 1, with a = (-8192, 14189) and a2 = (-8192, -14189):
**
**   3V1    (16384 Va + a Vb + a2 Vc) by 16384
**   3V2    (16384 Va + a2 Vb + a Vc) by 16384
**   3I2    (16384 Ia + a2 Ib + a Ic) by 16384
**
** Direction, with T = Re[3V2 (D 3I2)*]; the first line that holds:
**
**   none      |3I2|^2 < (pickup of 3I2)^2
**   forward   T < zf |3I2|^2
**   reverse   T > zr |3I2|^2
**   none      otherwise
**
** Loops, of end 1. P = 3V1. aP = a P by 16384 and a2P = a2 P by 16384 are rounded first; minus j
** rounds nothing: -j(x, y) = (y, -x). E = k (Ia + Ib + Ic) by 1000.
**
**   loop   V         I         Vp              loop   V         I         Vp
**   AG     Va        Ia + E    P               AB     Va - Vb   Ia - Ib   -j aP
**   BG     Vb        Ib + E    a2P             BC     Vb - Vc   Ib - Ic   -j P
**   CG     Vc        Ic + E    aP              CA     Vc - Va   Ic - Ia   -j a2P
**
**   n = Re(V Vp*), m = Re(Z I Vp*); a loop asserts exactly when m > 0 and 1000000 n <= r m
**   in the second zone, exactly when r2 > 0 and m > 0 and 1000000 n <= r2 m
**
** Quadrilateral ground loops, with V and I of AG, BG and CG, and Ir = Ia + Ib + Ic, without k. Im(p
** q*) of p = (x, y) and q = (u, v) is yu - xv. Nothing is rounded:
**
**   X = Im[(r Z I - 1000000 V) Ir*], n = Im[V (Z I)*], q = Im[Ir (Z I)*]
**   a loop operates exactly when R > 0, X > 0, q is not 0, 10 |n| <= R |q|, and the direction is
**   forward. A is of AG, B of BG, C of CG
**
** Differential of a phase, over the phasors I1 to IN of its currents, one of each end:
**
**   s = |I1 + .. + IN|^2
**   U = the sum over the ends of the smallest whole number whose square is at least 4096 |I|^2
**   the phase operates exactly when s >= pickup^2 and 40960000 s > (K U)^2
**   c = the largest whole number x from 1 to 100 with s >= pickup^2 and 40960000 s > (x U)^2; 0 if
**       there is none. It is 99 at most, since 64 times the root of s is at most U
**
** Trip: 1 exactly when a phase operates, or the direction is forward and a loop asserts, or |3I2|^2
** < (pickup of 3I2)^2 and AB, BC and CA all assert, or a quadrilateral ground loop operates. The
** second zone has no part in it.
**
** A DECISION, WORKED OUT
**
** The record of the three-ended line above. A channel with 8x in frame 0, -8y in frame 4 and 0 in
** the other frames has exactly the phasor (x, y), for x and y up to 4095. So this window is soon
** made:
**
**   Va (1000, 0)   Vb (-1000, -1732)   Vc (-1000, 1732)
**   Ia of end 1 (110, -590)   Ia of end 2 (40, -200)   all other currents (0, 0)
**
**   3V1 = (5000, 0)   3V2 = (-1000, 0)   3I2 = (110, -590)   |3I2|^2 = 360200, above 28^2
**   D 3I2 = (600350, -7730)   T = -600350000, below -225 x 360200 = -81045000: forward
**   E = (84420, -367660) by 1000 = (84, -368)
**   AG: I = (194, -958)   n = 5000000   m = 9968000000
**       1000000 n = 5000000000000 <= 800 m = 7974400000000: asserts, and so in the second zone too
**   AB: n = 12990000   m = 5259920000: 12990000000000 > 4207936000000, does not assert
**       12990000000000 > 1500 m = 7889880000000: nor in the second zone
**   A:  Ir = (110, -590)   Z I = (1993600, 4800)   X = 351401600000, above 0
**       n = -4800000   q = -1176752000   10 |n| = 48000000 <= 20 |q| = 23535040000: operates
**   B:  Z I = (769600, 20800)   X = 1145601600000, above 0   n = -1312147200   q = -456352000
**       10 |n| = 13121472000 > 20 |q| = 9127040000: does not operate, nor does C
**   phase a: s = 150^2 + 790^2 = 646600, above 57^2; U = 38411 + 13054 = 51465
**       40960000 s = 26484736000000 > (30 x 51465)^2 = 2383781602500: operates
**       26484736000000 > (99 x 51465)^2 = 25959381651225, and not > (100 x 51465)^2 =
**       26486462250000: c = 99 = 63 hex
**   root of 4096 s: 51463
**
** The other loops do not assert, and phases b and c have s = U = 0, and c = 0. The 32 bytes:
**
**   01 09 01 01 01 63 00 00 00 00 C9 09 00 00 00 00 00 00 00 00 00 00 C9 07 00 00 00 00 00 00 00 00
**
** Then a fault beyond the line: Va (1800, 0), Ia of end 1 (83, -444), Ia of end 2 (-83, 444), and
** all else as above. What flows in at end 1 flows out at end 2.
**
**   3V1 = (5800, 0)   3V2 = (-200, 0)   3I2 = (83, -444)   |3I2|^2 = 204025
**   T = -90366400, below -225 x 204025 = -45905625: forward
**   AG: n = 10440000   m = 8704640000, so it seems to lie at 1199 thousandths of Z
**       10440000000000 > 800 m = 6963712000000: does not assert
**       10440000000000 <= 1500 m = 13056960000000: asserts in the second zone
**   phase a: s = 0; U = 28909 + 28909 = 57818; c = 0, since s is below 57^2
**   A:  X = -265744000000, not above 0: does not operate
**   B:  10 |n| = 9866672000 > 20 |q| = 5175400000: does not operate, nor does C
**
** The direction is forward, and no loop but AG asserts in the second zone. There is no trip. The
** lamp is lit:
**
**   00 00 00 01 01 00 00 00 00 00 E1 DA 00 00 00 00 00 00 00 00 00 00 00 00 00 00 00 00 00 00 00 00
**
** OUTSIDE THE LIBRARY
**
** Transformer differential, travelling waves, alignment of clocks and polarising memory. So are
** the compensation of charging current, the supervision of the voltage transformers' fuses, the
** saturation of current transformers, the analog filter in front of the converter, and timers. Of
** event files the .cfg is outside, and so are data files that are text, and other editions than
** that of 1999.
**
** LIMITS
**
** What a decision cannot tell:
**   - A balanced three-phase fault has no direction. Distance trips on it by its loops alone, and
**     so on load, on a swing of power or on noise that looks like one, and on some faults behind:
**     BALANCED FAULTS says on which.
**   - Where the polarising quantity Vp is zero, as in a fault next to the relay with all three
**     voltages gone, no loop asserts, in either zone, and no circle trips. A voltage that is lost
**     to a blown fuse looks like a fault to the loops. It trips if the direction is forward, which
**     takes a 3I2 at its pickup; or below that, if AB, BC and CA all assert. The lamp asks for
**     neither, so load alone can light it then.
**   - A quadrilateral ground loop may operate on a fault beyond the line, by the loop of another
**     phase: THE QUADRILATERAL GROUND LOOPS says on which, and what the firmware has to ask.
**   - The second zone cannot tell a fault near the far end of the line from one beyond it, and it
**     asserts for some faults behind the relay: THE SECOND ZONE says for which.
**   - Clipped samples are not detected. A converter that clips at -32768 turns a heavy fault into
**     refusal 4, a missing sample, and there is no decision just then. It has to clip at -32767, at
**     every end.
**   - While a far end's samples are missing there is no decision at all, not even by distance.
**     Zeros in their place would look like a fault on the line. One missing sample is in 16 windows
**     in a row. What the relay does meanwhile, or while feed answers 10, is the firmware's matter.
**   - One window is one cycle, and one decision is of one window. A window that lies across the
**     beginning of a fault is part load and part fault. Feed decides 16 times a cycle, and holds
**     nothing from one decision to the next. How many decisions in a row to trust, and how long to
**     hold a trip or keep the lamp lit, is the firmware's matter.
**   - A frame that feed was never handed, or was handed twice, is not detected. The waves in the
**     window then have a step, and the phasors are wrong until it has passed, 15 frames later.
**   - c is of one window and of rounded phasors, and tells nothing of distance: HOW FAR OFF THE
**     SLOPE CAN BE.
**
** What the reading of an event file cannot tell:
**   - Times and status bits are not looked at. Times that stand still, go back or leave a gap are
**     not noticed: the frames are taken for neighbours, by their numbers alone.
**   - Samples that were damaged, a file of another scale or of another order of channels, and one
**     of another rate are not noticed. A wrong count of ends or of status channels is not noticed
**     as such: the next number then stands elsewhere, and in nearly every case shows it as 12.
**   - A file that lost whole records at its end is not noticed: it ends between two records, and
**     events_end answers 0. Compare the count of records with endsamp of the .cfg.
**
** What the transform of one cycle sees, for a wave of peak 1:
**   - Another frequency. At 0.98 of the nominal one (49 Hz for 50) the magnitude reads between
**     0.988 and 1.010, at 0.95 between 0.969 and 1.023, by the phase at which the window begins;
**     and the phasor turns by 7.2 or 18 degrees a cycle. All channels turn alike, so a current
**     through the line still adds up to zero. But a balanced current has a 3I2 of 0.031 of it at
**     0.98, and of 0.079 at 0.95. Where the frequency wanders, sample at 16 times that of the
**     network.
**   - Direct current that decays, after a fault that began at any moment. The magnitude reads
**     between 0.75 and 1.17 in a window that lies wholly in the fault, by the time constant and the
**     phase. So for a cycle or two a loop can reach beyond its setting. A current through the line
**     still adds up to zero. But the offsets of the three phases differ, and a balanced fault has a
**     3I2 of up to 0.46 of its current in the first such window, 0.31 with a time constant of one
**     cycle. It falls by that time constant, to 0.042 after two cycles more. Until it is below its
**     pickup, distance does not trip on the fault by the rule for balanced faults.
**   - Harmonics 2 to 14 are taken out. The 15th and the 17th count in full, like the wave itself:
**     the analog filter has to remove them.
*/
#ifndef GORSEPETAL_H
#define GORSEPETAL_H

#include <stddef.h>
#include <stdint.h>

#ifdef __cplusplus
extern "C" {
#endif

/* The version of this file and of the archive: text, and 10000 major + 100 minor + patch. */
#define GORSEPETAL_VERSION "6.0.0"
#define GORSEPETAL_VERSION_NUMBER 60000

/* Lengths in bytes: a relay's state, a settings record and a decision. */
#define GORSEPETAL_STATE_LENGTH 738
#define GORSEPETAL_RECORD_LENGTH 32
#define GORSEPETAL_DECISION_LENGTH 32

/* A window: its frames, the numbers and the bytes of a frame of a line with so many ends, the bytes
** of the whole. The longest, that of six ends, in numbers. The place of a missing sample, divided
** by GORSEPETAL_CHANNELS, is its frame; what is left over is its channel. */
#define GORSEPETAL_FRAMES 16
#define GORSEPETAL_CHANNELS(ends) (3 + 3 * (ends))
#define GORSEPETAL_FRAME_BYTES(ends) (2 * (3 + 3 * (ends)))
#define GORSEPETAL_WINDOW_BYTES(ends) (2 * 16 * (3 + 3 * (ends)))
#define GORSEPETAL_LONGEST_WINDOW_NUMBERS 336

/* The number that stands for a missing sample, and the largest sample, also with a minus sign. */
#define GORSEPETAL_MISSING (-32768)
#define GORSEPETAL_LARGEST_SAMPLE 32767

/* A reader of event files, in bytes; where in it the time and the frame of the last whole record
** stand; and the bytes of a record of a file with so many ends and status channels. The writer's
** records have no status channels. */
#define GORSEPETAL_EVENTS_LENGTH 160
#define GORSEPETAL_EVENTS_TIME 8
#define GORSEPETAL_EVENTS_FRAME 12
#define GORSEPETAL_EVENTS_RECORD_BYTES(ends, status)                                               \
  (8 + 2 * (3 + 3 * (ends)) + 2 * (((status) + 15) / 16))

/* The offset of each part of the state: the two records, and the count and the numbers of feed's
** window. */
#define GORSEPETAL_STATE_AT_IN_FORCE 0
#define GORSEPETAL_STATE_AT_PENDING 32
#define GORSEPETAL_STATE_AT_COUNT 64
#define GORSEPETAL_STATE_AT_NUMBERS 66

/* The offset of each field of a settings record. */
#define GORSEPETAL_AT_ENDS 0
#define GORSEPETAL_AT_SLOPE 2
#define GORSEPETAL_AT_PICKUP 4
#define GORSEPETAL_AT_REPLICA_REAL 6
#define GORSEPETAL_AT_REPLICA_IMAGINARY 8
#define GORSEPETAL_AT_REACH 10
#define GORSEPETAL_AT_K_REAL 12
#define GORSEPETAL_AT_K_IMAGINARY 14
#define GORSEPETAL_AT_ANGLE_REAL 16
#define GORSEPETAL_AT_ANGLE_IMAGINARY 18
#define GORSEPETAL_AT_FORWARD_LIMIT 20
#define GORSEPETAL_AT_REVERSE_LIMIT 22
#define GORSEPETAL_AT_NEGATIVE_SEQUENCE_PICKUP 24
#define GORSEPETAL_AT_SECOND_REACH 26
#define GORSEPETAL_AT_RESISTIVE_REACH 28

/* The offset of each part of a decision. */
#define GORSEPETAL_DECISION_AT_TRIP 0
#define GORSEPETAL_DECISION_AT_PHASES 1
#define GORSEPETAL_DECISION_AT_LOOPS 2
#define GORSEPETAL_DECISION_AT_DIRECTION 3
#define GORSEPETAL_DECISION_AT_SECOND_ZONE 4
#define GORSEPETAL_DECISION_AT_CHANGE_A 5
#define GORSEPETAL_DECISION_AT_CHANGE_B 6
#define GORSEPETAL_DECISION_AT_CHANGE_C 7
#define GORSEPETAL_DECISION_AT_RESTRAINT_A 8
#define GORSEPETAL_DECISION_AT_RESTRAINT_B 12
#define GORSEPETAL_DECISION_AT_RESTRAINT_C 16
#define GORSEPETAL_DECISION_AT_DIFFERENTIAL_A 20
#define GORSEPETAL_DECISION_AT_DIFFERENTIAL_B 24
#define GORSEPETAL_DECISION_AT_DIFFERENTIAL_C 28

/* The bits of a decision's phases, and all of them; of its quadrilateral ground loops, and all of
** them, in the same byte; and of its loops in either zone. */
#define GORSEPETAL_PHASE_A 1
#define GORSEPETAL_PHASE_B 2
#define GORSEPETAL_PHASE_C 4
#define GORSEPETAL_PHASES 7
#define GORSEPETAL_QUADRILATERAL_A 8
#define GORSEPETAL_QUADRILATERAL_B 16
#define GORSEPETAL_QUADRILATERAL_C 32
#define GORSEPETAL_QUADRILATERALS 56
#define GORSEPETAL_LOOP_AG 1
#define GORSEPETAL_LOOP_BG 2
#define GORSEPETAL_LOOP_CG 4
#define GORSEPETAL_LOOP_AB 8
#define GORSEPETAL_LOOP_BC 16
#define GORSEPETAL_LOOP_CA 32

/* A decision's direction. */
#define GORSEPETAL_DIRECTION_NONE 0
#define GORSEPETAL_DIRECTION_FORWARD 1
#define GORSEPETAL_DIRECTION_REVERSE 2

/* The numbers given back: the table above says when. */
#define GORSEPETAL_DONE 0
#define GORSEPETAL_NO_SETTINGS 1
#define GORSEPETAL_OTHER_WINDOW_LENGTH 2
#define GORSEPETAL_NO_ROOM 3
#define GORSEPETAL_MISSING_SAMPLE 4
#define GORSEPETAL_OTHER_ENTRY_LENGTH 5
#define GORSEPETAL_OUT_OF_RANGE 6
#define GORSEPETAL_NOTHING_PENDING 7
#define GORSEPETAL_DIFFERS 8
#define GORSEPETAL_OTHER_FRAME_LENGTH 9
#define GORSEPETAL_TOO_FEW_FRAMES 10
#define GORSEPETAL_INSIDE_RECORD 11
#define GORSEPETAL_OTHER_NUMBER 12
#define GORSEPETAL_BAD_FILE 13
#define GORSEPETAL_NO_RELAY 17

/* The two parts of what a call gave back. */
#define GORSEPETAL_NUMBER(given_back) ((given_back) % 256)
#define GORSEPETAL_PLACE(given_back) ((given_back) / 256)

/*
** Propose a settings record: the first of the two entries.
**
**   state   the relay, 738 bytes; changed as said below
**   entry   the record, 32 bytes
**
** Checked in this order:
**   17              state_len is not 738; nothing is changed
**   5  at 0         entry_len is not 32
**   6  at offset    the first field of the entry that is out of range
**
** Done (0): the entry is pending, in place of any earlier pending record.
** Refused with 5 or 6: nothing is pending any more; bytes 32 to 63 of the state are zero, whatever
** they held.
** Either way all other bytes stay as they were: the record in force, and feed's window.
*/
uint64_t gorsepetal_propose(uint8_t *state, size_t state_len, const uint8_t *entry,
                            size_t entry_len);

/*
** Confirm the pending record by entering it again: the second of the two entries.
**
**   state   the relay, 738 bytes; changed as said below
**   entry   the same 32 bytes as were proposed, entered anew
**
** Checked in this order:
**   17              state_len is not 738; nothing is changed
**   5  at 0         entry_len is not 32
**   7  at 0         nothing is pending, or what is stored as pending is a record that propose would
**                   refuse
**   8  at offset    the entry differs from the pending record, first at this offset
**
** Done (0): bytes 0 to 31 of the state are the entry, now in force, and bytes 32 to 737 are zero:
** nothing is pending, and feed's window is empty, also where it was the record in force once more.
** Feed answers 10 to the next 15 frames, so there is no decision by feed for 15/16 of a cycle.
** Refused with 5, 7 or 8: nothing is pending any more; bytes 32 to 63 are zero, whatever they held,
** and all others stay as they were. So after a mismatch both entries have to be made again: a third
** entry cannot confirm.
*/
uint64_t gorsepetal_confirm(uint8_t *state, size_t state_len, const uint8_t *entry,
                            size_t entry_len);

/*
** Read back the settings in force.
**
**   state   the relay, 738 bytes; never changed
**   out     room for the record, 32 bytes or more
**
** Checked in this order:
**   17              state_len is not 738
**   1  at 0         no settings are in force, or what is stored there is a record that propose
**                   would refuse
**   3  at 0         out_len is below 32
**
** Done (0): the first 32 bytes of out are the record in force; later ones stay as they were.
** Refused: nothing is written to out.
*/
uint64_t gorsepetal_read_back(const uint8_t *state, size_t state_len, uint8_t *out,
                              size_t out_len);

/*
** Decide on a window by the settings in force.
**
**   state     the relay, 738 bytes; never changed
**   samples   the window, of the length for the ends N of the record in force; never changed
**   out       room for the decision, 32 bytes or more
**
** Checked in this order:
**   17              state_len is not 738
**   1  at 0         no settings are in force, or what is stored there is a record that propose
**                   would refuse
**   2  at 0         samples_len is not GORSEPETAL_WINDOW_BYTES(N); so every odd length, and that of
**                   a window of other ends
**   3  at 0         out_len is below 32
**   4  at index     a sample is missing: the first, by its index among the numbers, which is half
**                   its offset in bytes
**
** Done (0): the first 32 bytes of out are the decision; later ones stay as they were.
** Refused: nothing is written to out, and there is no decision: out still holds the one before.
** A pending record has no part in it: the record in force decides until another is confirmed. Nor
** has feed's window.
*/
uint64_t gorsepetal_decide(const uint8_t *state, size_t state_len, const uint8_t *samples,
                           size_t samples_len, uint8_t *out, size_t out_len);

/*
** Hand over the newest frame, and decide on the newest 16 by the settings in force.
**
**   state   the relay, 738 bytes; changed as said below
**   frame   the newest frame, of the length for the ends N of the record in force; never changed
**   out     room for the decision, 32 bytes or more
**
** Checked in this order:
**   17              state_len is not 738
**   1  at 0         no settings are in force, or what is stored there is a record that propose
**                   would refuse
**   9  at 0         frame_len is not GORSEPETAL_FRAME_BYTES(N); so every odd length, and that of a
**                   frame of other ends
**   3  at 0         out_len is below 32, also where nothing would be written
**   10 at 0         fewer than 16 frames are kept, this one counted
**   4  at index     a sample is missing among the newest 16 frames: the first, by its index among
**                   their numbers, the oldest frame first
**
**   answer         state                                        out
**   17, 1, 9, 3    as it was: the frame is not kept             as it was
**   10, 4          the frame is kept                            as it was: no decision
**   0              the frame is kept                            first 32 bytes: the decision
**
** Kept: of the first 16(3 + 3N) numbers, from byte 66 on, the first 3 + 3N go, and the frame's
** stand last. The count, bytes 64 and 65, becomes one more and at most 16; a count above 16 reads
** as 16. All other bytes of the state stay as they were, and so do later bytes of out.
** A pending record has no part in it: the record in force decides until another is confirmed.
*/
uint64_t gorsepetal_feed(uint8_t *state, size_t state_len, const uint8_t *frame, size_t frame_len,
                         uint8_t *out, size_t out_len);

/*
** Begin an event file: put a reader at its start.
**
**   reader   the reader, 160 bytes; changed as said below
**   ends     how many ends the file has, 2 to 6: it has 3 + 3 x ends analog channels
**   status   how many status channels it has, 0 to 96
**
** Checked in this order:
**   17              reader_len is not 160
**   13 at 0         ends is below 2 or above 6, or status is above 96; so 65538 ends, too
**
**   answer   reader
**   17       as it was
**   13       160 zero bytes: a reader that was never opened
**   0        ends in byte 0, status in byte 1, and 158 zero bytes
**
** What the reader held has no part in it: a reading that has ended, or is in the midst of a record,
** is given up. No relay is lent, and so feed's window stays as it was.
*/
uint64_t gorsepetal_events_open(uint8_t *reader, size_t reader_len, uint64_t ends, uint64_t status);

/*
** How many bytes are missing to the end of the record that is being read.
**
**   reader   the reader, 160 bytes; never changed
**
** Gives back a count of bytes, and no answer of the table:
**   1 to 62         so many are missing; between two records, and at the start of the file,
**                   GORSEPETAL_EVENTS_RECORD_BYTES(ends, status)
**   0               the reading has ended, or the reader was never opened, or reader_len is not 160
*/
uint64_t gorsepetal_events_wanted(const uint8_t *reader, size_t reader_len);

/*
** Hand over the next bytes of an event file. If they finish a record, its frame is handed to the
** relay, as by gorsepetal_feed.
**
**   state    the relay, 738 bytes; changed as said below
**   reader   the reader, 160 bytes; changed as said below
**   bytes    the next bytes of the file, of any length; never changed. As many of them
**            are taken as are wanted; the rest has to be handed over again
**   out      room for the decision, 32 bytes or more
**
** Checked in this order:
**   17              state_len is not 738, or reader_len is not 160
**   13 at 0         the reading has ended with 13: the reader was not opened, or open answered 13
**   12 at index     the reading has ended with 12; or the four bytes of the record's sample number
**                   are there now, and it is not one above its index, which counts from 0
**   11 at index     the reading has ended with 11
** and then, only if the record is whole now, as feed does with its frame:
**   1  at 0         no settings are in force, or what is stored there is a record that propose
**                   would refuse
**   9  at 0         the file's ends are not the N of the record in force
**   3  at 0         out_len is below 32, also where nothing would be written
**   10 at 0         fewer than 16 frames are kept, this one counted
**   4  at index     a sample is missing among the newest 16 frames: the first, by its index among
**                   their numbers, the oldest frame first
**
**   answer              state               reader                out
**   17                  as it was           as it was             as it was
**   13, 12, 11, again   as it was           as it was             as it was
**   12, now found       as it was           it has ended          as it was
**   0, not whole        as it was           the bytes are taken   as it was
**   1, 9, 3             as it was           the record is read    as it was
**   10, 4               the frame is kept   the record is read    as it was: no decision
**   0, whole            the frame is kept   the record is read    first 32 bytes: the decision
**
** The bytes are taken: they stand behind those in hand, from byte 56 + (byte 3) on, and byte 3
** counts them too.
** It has ended: the bytes stand there likewise, byte 2 is 12, and byte 3 is as it was.
** The record is read: the bytes stand there likewise, and byte 3 is 0. Bytes 4 to 7 are its sample
** number, four bytes as they stood in the file: it is the index of the next record. Bytes 8 to 11
** are its time, and its frame stands from byte 12 on.
** All other bytes of the reader stay as they were. Who lends fewer bytes than wanted knows that 0
** means "taken", and who lends as many knows that 0 means "decided". What a frame that is kept
** changes in the state stands above gorsepetal_feed. A pending record has no part in it.
*/
uint64_t gorsepetal_events_read(uint8_t *state, size_t state_len, uint8_t *reader,
                                size_t reader_len, const uint8_t *bytes, size_t bytes_len,
                                uint8_t *out, size_t out_len);

/*
** Say that the file has no more bytes, and ask how it ended.
**
**   reader   the reader, 160 bytes; changed as said below
**
** Checked in this order:
**   17              reader_len is not 160
**   13 at 0         the reading has ended with 13: the reader was not opened, or open answered 13
**   12 at index     the reading has ended with 12
**   11 at index     the reading has ended with 11; or it is inside a record: one byte or more of it
**                   is in hand
**
**   answer              reader
**   17                  as it was
**   13, 12, 11, again   as it was
**   11, now found       byte 2 is 11, and all others are as they were
**   0                   as it was
**
** Done (0): the file ended between two records, or had no bytes. Further bytes are read on.
*/
uint64_t gorsepetal_events_end(uint8_t *reader, size_t reader_len);

/*
** Make one record of an event file without status channels.
**
**   ends      how many ends the file has, 2 to 6
**   written   how many records came before it: its sample number is one more
**   time      its time, any number
**   frame     the frame, numbers with the upper byte first as feed takes it; never changed
**   out       room for the record
**
** Checked in this order:
**   13 at 0         ends is below 2 or above 6
**   9  at 0         frame_len is not GORSEPETAL_FRAME_BYTES(ends)
**   3  at 0         out_len is below GORSEPETAL_EVENTS_RECORD_BYTES(ends, 0), which is 26 for two
**                   ends and 50 for six
**   12 at 0         written is 4294967295 or more: the number would be past 4294967295
**
** Done (0): the record stands at the front of out; later bytes stay as they were.
** Refused: nothing is written to out.
** The samples are not looked at: -32768, a missing one, becomes 8000 hex.
*/
uint64_t gorsepetal_events_write(uint64_t ends, uint64_t written, uint32_t time,
                                 const uint8_t *frame, size_t frame_len, uint8_t *out,
                                 size_t out_len);

#ifdef __cplusplus
}
#endif

#endif
