! Charges a vehicle axle by axle, each load at the rate of its class, and writes gross, heaviest load and charge on the ticket.
! In:  %o0 (r8) ten axle loads in divisions of 20 kg, %o1 (r9) the tariff, %o2 (r10) the ticket, %sp (r14) the frame.
! Out: %o0 the charge in cents.
! In scratch words, since the loop needs all of %g1 to %g7 and %o0 to %o5:
!      [%sp+96] the ticket, [%sp+100] the gross weight so far, [%sp+104] the heaviest load so far.

        st      %o2, [%sp+96]           ! 0
        ld      [%o1], %g1              ! 1  the classes' limits; the fourth has none
        ld      [%o1+4], %g2            ! 2
        ld      [%o1+8], %g3            ! 3
        ld      [%o1+12], %g4           ! 4  their rates: cents for each division
        ld      [%o1+16], %g5           ! 5
        ld      [%o1+20], %g6           ! 6
        ld      [%o1+24], %g7           ! 7
        st      %g0, [%sp+104]          ! 8
        clr     %o1                     ! 9  the axle's offset in the loads: 0, 4, .. 36
        clr     %o2                     ! 10 the charge

next:   ld      [%o0 + %o1], %o3        ! 11 an axle load
        ld      [%sp+100], %o5          ! 12
        add     %o5, %o3, %o5           ! 13
        st      %o5, [%sp+100]          ! 14
        ld      [%sp+104], %o5          ! 15
        cmp     %o3, %o5                ! 16
        bg,a    class                   ! 17
        st      %o3, [%sp+104]          ! 18 slot, skipped unless this load is heavier

! The rate of its class.
class:  cmp     %o3, %g1                ! 19
        ble     times                   ! 20
        mov     %g4, %o4                ! 21 slot: the first class's rate, on either way
        cmp     %o3, %g2                ! 22
        ble     times                   ! 23
        mov     %g5, %o4                ! 24 slot
        cmp     %o3, %g3                ! 25
        ble     times                   ! 26
        mov     %g6, %o4                ! 27 slot
        mov     %g7, %o4                ! 28

! Load times rate, a bit of the load at a time.
times:  andcc   %o3, 1, %g0             ! 29
        be      even                    ! 30
        srl     %o3, 1, %o3             ! 31 slot: the next bit
        add     %o2, %o4, %o2           ! 32
even:   cmp     %o3, 0                  ! 33
        bne     times                   ! 34
        sll     %o4, 1, %o4             ! 35 slot: the rate for that bit

        cmp     %o1, 36                 ! 36 was it the last axle?
        bl,a    next                    ! 37
        add     %o1, 4, %o1             ! 38 slot, skipped after the last axle

! The ticket.
        ld      [%sp+96], %o1           ! 39
        ld      [%sp+100], %o3          ! 40
        st      %o3, [%o1]              ! 41 gross
        ld      [%sp+104], %o3          ! 42
        st      %o3, [%o1+4]            ! 43 heaviest
        st      %o2, [%o1+8]            ! 44 charge
        retl                            ! 45
        mov     %o2, %o0                ! 46 slot
