steps 1020
 18.4%           188          94x  ##############################  line 42: ldc i_behind - i_head
 18.4%           188          94x  ##############################  line 44: lend
  9.2%            94          94x  ###############                 line 25: ldl 0
  9.2%            94          94x  ###############                 line 26: ldl 3
  9.2%            94          94x  ###############                 line 27: gt
  9.2%            94          94x  ###############                 line 28: cj skip
  9.2%            94          94x  ###############                 line 41: ldlp 3
  1.9%            20          10x  ###                             line 30: mint
  1.9%            20          10x  ###                             line 36: sum
  0.9%            10          10x  #                               line 29: ldlp 1
  0.9%            10          10x  #                               line 31: ldnlp 1
  0.9%            10          10x  #                               line 32: ldc 4
  0.9%            10          10x  #                               line 33: out
  0.9%            10          10x  #                               line 34: ldl 1
  0.9%            10          10x  #                               line 35: ldl 2
  0.9%            10          10x  #                               line 37: ldl 2
  0.9%            10          10x  #                               line 38: stl 1
  0.9%            10          10x  #                               line 39: stl 2
  0.3%             4           2x                                  line 11: mint
  0.3%             4           2x                                  line 22: ldc 47
  0.3%             4           2x                                  line 47: mint
  0.3%             4           2x                                  line 50: stopp
  0.1%             2           2x                                  line 10: ldlp 0
  0.1%             2           2x                                  line 12: ldnlp 4
  0.1%             2           2x                                  line 13: ldc 4
  0.1%             2           2x                                  line 14: in
  0.1%             2           2x                                  line 15: ldc 0
  0.1%             2           2x                                  line 16: stl 1
  0.1%             2           2x                                  line 17: ldc 1
  0.1%             2           2x                                  line 18: stl 2
  0.1%             2           2x                                  line 20: ldc 0
  0.1%             2           2x                                  line 21: stl 3
  0.1%             2           2x                                  line 23: stl 4
  0.1%             2           2x                                  line 46: ldlp 1
  0.1%             2           2x                                  line 48: ldc 4
  0.1%             2           2x                                  line 49: out
 95.6%           976          94x  ############################    loop row 0 (line 23), 15 to 35
