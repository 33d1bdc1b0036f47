C     Powers, signs and the functions of integers, at their edges
      PROGRAM POWERS
      I = 3
      J = 2
      K = -7
C     from the right, and with the sign outside
      I1 = I ** J ** J
      I2 = (I ** J) ** J
      I3 = -I ** J
      I4 = (-I) ** 3
      I5 = J ** (-1)
      I6 = (-1) ** (-3)
C     toward zero
      N1 = K / J
      N2 = -K / J * J
      N3 = K / (J * J)
      N4 = MOD(K, J)
      N5 = MOD(-K, -J)
C     the functions
      M1 = MAX(I, J, K, 5, I + J) - MIN(I, J, K)
      M2 = ISIGN(I, K) + IABS(K) * IDIM(I, J)
      M3 = SIGN(-4, 0) + DIM(J, I) - ABS(K)
      M4 = MAX0(I, MIN0(J, 1))
      LEAST = -2147483647 - 1
      END
