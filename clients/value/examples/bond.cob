       identification division.
       program-id. bond.
      *> The row of a 50-dollar bond of November 2005 at 3.20 % and then
      *> an invented 4.00 %, in every month that is read from standard input.
       data division.
       working-storage section.
       01 question.
          05 dollars           binary-long unsigned value 50.
          05 issued            binary-long unsigned value 200511.
          05 asked             binary-long unsigned.
          05 rate              binary-long unsigned value 320.
          05 extension         binary-long unsigned value 400.
       01 answer.
          05 payable-cents     binary-double unsigned.
          05 price-cents       binary-double unsigned.
          05 interest-cents    binary-double unsigned.
          05 value-cents       binary-double unsigned.
          05 answer-status     binary-long unsigned.
          05 note              binary-long unsigned.
          05 next-accrual      binary-long unsigned.
          05 final-maturity    binary-long unsigned.
       01 outcome              binary-long.
       01 month-read           pic 9(6).
       01 paid                 pic zzz,zzz,zz9.99.
       01 note-shown           pic 9.
       01 month-shown          pic 9(6).
       01 message-text         pic x(64).
       01 text-room            binary-double value 64.
       01 text-length          binary-double.
       procedure division.
           perform until exit
               accept month-read on exception exit perform end-accept
               if month-read = 0 exit perform end-if
               move month-read to asked
               call static "ee_value_row_into" using
                   by value dollars by value issued by value asked
                   by value rate by value extension
                   by reference answer returning outcome
               if outcome = 0
                   compute paid = payable-cents / 100
                   move note to note-shown
                   move final-maturity to month-shown
                   display month-read " pays" paid " note " note-shown
                       " until " month-shown
               else
                   move spaces to message-text
                   call static "ee_value_status_text" using
                       by value outcome
                       by reference message-text by value text-room
                       returning text-length
                   display month-read " refused: "
                       message-text(1:text-length)
               end-if
           end-perform
           stop run.
