\ x1 y1 make_base
\ x2 y2 finish
\ x3 y3 recover
\ x4 y4 buy_help
Minimize
 cost: + 11.8 x1 + 1 x2 - 0.8 x3 + 10 x4 + 40 y1 + 61 y2
   + 13 y3 + 3 y4
Subject To
 most_x1: + 1 x1 - 1000000000 y1 <= 0
 most_x2: + 1 x2 - 1000000000 y2 <= 0
 most_x3: + 1 x3 - 1000000000 y3 <= 0
 most_x4: + 1 x4 - 1000000000 y4 <= 0
 m1_low: - 1.3 x1 >= -1000000000
 m1_high: - 1.3 x1 <= 0
 m2_low: - 0.1 x3 >= -1000000000
 m2_high: - 0.1 x3 <= 0
 m3_low: - 1 x4 >= -1000000000
 m3_high: - 1 x4 <= 0
 m4_low: + 0.8 x1 - 1.1 x2 >= 0
 m4_high: + 0.8 x1 - 1.1 x2 <= 1000000000
 fed_y2_m4: + 1 y1 - 1 y2 >= 0
 m5_low: + 0.15 x1 - 1 x3 >= 0
 m5_high: + 0.15 x1 - 1 x3 <= 1000000000
 fed_y3_m5: + 1 y1 - 1 y3 >= 0
 m6_low: + 1 x3 + 1 x4 - 0.4 x2 >= 0
 m6_high: + 1 x3 + 1 x4 - 0.4 x2 <= 1000000000
 fed_y2_m6: + 1 y3 + 1 y4 - 1 y2 >= 0
 m7: + 0.8 x2 = 10
 made_m7: + 1 y2 >= 1
 leads_y1: + 1 y2 + 1 y3 - 1 y1 >= 0
 leads_y3: + 1 y2 - 1 y3 >= 0
 leads_y4: + 1 y2 - 1 y4 >= 0
Binaries
 y1 y2 y3 y4
End
