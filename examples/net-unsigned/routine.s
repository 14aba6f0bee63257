! Ten net axle loads, in a loop that ends by an unsigned comparison. For the newer terminal.
! In:  %o0 (r8) the axle loads, %o1 (r9) the ticket, %o2 (r10) the tare of an axle.
! Out: %o0 the count of axles.

        clr     %g1                     ! 0  the load's offset: 0, 4, .. 36
next:   ld      [%o0 + %g1], %g2        ! 1
        sub     %g2, %o2, %g2           ! 2  less the tare
        cmp     %g2, 0                  ! 3
        bl,a,pn %icc, keep              ! 4  seldom: the axle is lighter than the tare
        clr     %g2                     ! 5  slot, skipped unless it is
keep:   cmp     %g1, 36                 ! 6  is it the last?
        st      %g2, [%o1 + %g1]        ! 7
        blu,pt  %icc, next              ! 8  nine times of ten: less, unsigned
        add     %g1, 4, %g1             ! 9  slot: the next load, on either way
        retl                            ! 10
        mov     10, %o0                 ! 11 slot
