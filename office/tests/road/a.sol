Problem:    
Rows:       9
Columns:    9 (9 integer, 0 binary)
Non-zeros:  33
Status:     INTEGER OPTIMAL
Objective:  cost = 2 (MINimum)

   No.   Row name        Activity     Lower bound   Upper bound
------ ------------    ------------- ------------- -------------
     1 item_1                      2             2               
     2 item_2                      3             3               
     3 boards_0                    0             0             = 
     4 plate_1                     0             0               
     5 plate_2                     1             0               
     6 plate_3                     0             0               
     7 plate_4                     2             0               
     8 plate_5                     0             0               
     9 pieces                      5                        4000 

   No. Column name       Activity     Lower bound   Upper bound
------ ------------    ------------- ------------- -------------
     1 size_0       *              2             0               
     2 x_0_1_0      *              0             0               
     3 x_0_2_0      *              2             0               
     4 x_1_2_0      *              0             0               
     5 x_2_2_0      *              1             0               
     6 x_3_1_0      *              2             0               
     7 x_3_2_0      *              0             0               
     8 x_4_2_0      *              0             0               
     9 x_5_2_0      *              0             0               

Integer feasibility conditions:

KKT.PE: max.abs.err = 0.00e+00 on row 0
        max.rel.err = 0.00e+00 on row 0
        High quality

KKT.PB: max.abs.err = 0.00e+00 on row 0
        max.rel.err = 0.00e+00 on row 0
        High quality

End of output
