# A morning in the hall. One command a line, in hexadecimal: the command byte, then its operands, high byte first. What stands
# behind a # is a comment. This turns it into the bytes of a tape and runs it:
#
#     sed 's/#.*//' examples/morning.tape | xxd -r -p | target/bin/hall

# pay-ins: participant, then lots (01) or money (02)
01 0001 00000064            # 1 pays in 100 lots
01 0002 00000032            # 2 pays in 50 lots
02 0003 00000000000f4240    # 3 pays in money 1,000,000
02 0004 0000000000002710    # 4 pays in money 10,000
03                          # open

# orders: sell (10) or buy (11), participant, limit, lots
10 0001 00000069 0000001e   # 1 sells 105 x 30: order 1
11 0003 00000064 00000014   # 3 buys 100 x 20: order 2
11 0004 00000069 00000064   # 4 buys 105 x 100 and has not that much money: 32
11 0004 00000062 0000000a   # 4 buys 98 x 10: order 3
12 0004 0003                # 4 withdraws order 3
12 0004 0003                # and again, but nothing of it waits: 17
20                          # strike: the sell at 105 is above the buy at 100, so this is abandoned and both are annulled

10 0001 00000064 00000028   # 1 sells 100 x 40: order 4
10 0002 00000066 0000001e   # 2 sells 102 x 30: order 5
11 0003 00000067 00000032   # 3 buys 103 x 50: order 6
11 0004 00000065 0000001e   # 4 buys 101 x 30: order 7
10 0003 00000067 00000001   # 3 sells at 103, where its own buy waits: 15
20                          # strike: 103
10 0001 0000005a 00000001   # no order is taken while struck: 21
24                          # annul: orders 4 to 7, 150 lots

10 0002 0000005f 00000005   # 2 sells 95 x 5: order 8
30                          # close: order 8 is annulled
20                          # nothing runs after close: 21
