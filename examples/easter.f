C     Easter Sunday of a year in the Gregorian calendar, as its month
C     and its day (the rule of Meeus, Jones and Butcher)
      PROGRAM EASTER
      IYEAR = 1999
C     the year's place in the cycle of the moon, its century, and the rest
      LUNAR = MOD(IYEAR, 19)
      ICENT = IYEAR / 100
      LAST = MOD(IYEAR, 100)
C     how far the moon has gone from its cycle by then
      MOON = (ICENT - (ICENT + 8) / 25 + 1) / 3
      MAGE = MOD(19*LUNAR + ICENT - ICENT/4 - MOON + 15, 30)
C     the days from the full moon to a Sunday
      NEXT = MOD(32 + 2*(MOD(ICENT, 4) + LAST/4) - MAGE - MOD(LAST, 4),
     1           7)
      LATE = (LUNAR + 11*MAGE + 22*NEXT) / 451

      NUMBER = MAGE + NEXT - 7*LATE + 114
      MONTH = NUMBER / 31
      IDAY = MOD(NUMBER, 31) + 1
      STOP
      END
