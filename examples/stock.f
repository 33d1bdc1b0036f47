C     STOCK COUNT
      PROGRAM STOCK
      INTEGER QTY(100), TOTAL
      CHARACTER*8 ITEM
      COMMON /LOT/ QTY, N
C     DOUBLE IT
      IDBL(K) = 2 * K
      TOTAL = 0
   10 READ (5, 900, END=30) ITEM, K
  900 FORMAT (A8, I5)
      IF (K .LE. 0) THEN
      GO TO 10
      ELSE IF (ITEM .EQ. 'IT''S') THEN
      DO 20 I = 1, N
      DO 20 J = I, N
      IF (QTY(I) .EQ. QTY(J)) GO TO 20
      QTY(I) = IDBL(K)
   20 CONTINUE
      ELSE
      CALL ADD(K)
      END IF
      IF (N .LT. 100) GO TO 10
   30 WRITE (6, 910) N, (QTY(I), I = 1, N)
  910 FORMAT (1X, 'TOTAL', I8, 2(3H IS, I5))
      END
      SUBROUTINE ADD(K)
      COMMON /LOT/ QTY(100), N
      INTEGER QTY
      N = N + 1
      QTY(N) = K
     1  - 1
      IF (N .GE. 100) RETURN
      END
      BLOCK DATA
      COMMON /LOT/ QTY(100), N
      INTEGER QTY
      DATA N /0/
      END
