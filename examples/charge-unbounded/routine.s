! The rate of a weight's band, in cents for each division; trusts that the last limit is never exceeded.
! In:  %o0 (r8) the tariff, %o1 (r9) the weight in divisions of 20 kg, 0 to 3,000.
! Out: %o0 the rate.

        clr     %g1                     ! 0  the band's offset in the table: 0, 4, ..
band:   ld      [%o0 + %g1], %g2        ! 1  its limit
        cmp     %o1, %g2                ! 2
        bg,a    band                    ! 3  nothing stops it after the last band
        add     %g1, 4, %g1             ! 4  slot, skipped once the band is found
        add     %o0, 24, %o2            ! 5  the rates begin at byte 24
        retl                            ! 6
        ld      [%o2 + %g1], %o0        ! 7  slot: the band's rate
