! Works out a charge in cents: the weight times the rate of its band, at most 99,999.
! In:  %o0 (r8) the tariff, %o1 (r9) the weight in divisions of 20 kg, 0 to 3,000.
! Out: %o0 the charge.

! The band: the first one whose limit the weight does not exceed, or the last.
        clr     %g1                     ! 0  the band's offset in the table: 0, 4, .. 20
band:   ld      [%o0 + %g1], %g2        ! 1  its limit
        cmp     %o1, %g2                ! 2
        ble     found                   ! 3
        cmp     %g1, 20                 ! 4  slot: is it the last band?
        bl,a    band                    ! 5
        add     %g1, 4, %g1             ! 6  slot, skipped after the last band
found:  add     %o0, 24, %o2            ! 7  the rates begin at byte 24
        ld      [%o2 + %g1], %g3        ! 8  the band's rate

! Weight times rate, a bit of the weight at a time.
        clr     %g4                     ! 9  the charge
times:  andcc   %o1, 1, %g0             ! 10
        be      even                    ! 11
        srl     %o1, 1, %o1             ! 12 slot: the next bit
        add     %g4, %g3, %g4           ! 13
even:   cmp     %o1, 0                  ! 14
        bne     times                   ! 15
        sll     %g3, 1, %g3             ! 16 slot: the rate for that bit

! The ticket has five digits.
        set     99999, %g5              ! 17 and 18
        cmp     %g4, %g5                ! 19
        bg,a    least                   ! 20
        mov     %g5, %g4                ! 21 slot, skipped unless the charge is above
least:  cmp     %g4, 0                  ! 22
        bl,a    done                    ! 23
        clr     %g4                     ! 24 slot, skipped unless the charge is below
done:   retl                            ! 25
        mov     %g4, %o0                ! 26 slot
