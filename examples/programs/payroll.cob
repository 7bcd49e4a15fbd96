      *> A month's payroll. The hours come as lines of text, and wages
      *> go to an indexed file, by month and number. Then wages are
      *> printed by department, the highest first; staff by name; and
      *> the wages of one department, by an alternate key.
      *>
      *>     cobc -x -fcallfh=cobixfh payroll.cob \
      *>         -L $HOME/.local/lib -lcobixfh
      *>     ./payroll < hours.txt
       identification division.
       program-id. payroll.
       environment division.
       input-output section.
       file-control.
           select staff assign to "staff.dat"
               organization is indexed access mode is dynamic
               record key is staff-number
               alternate record key is staff-name with duplicates
               alternate record key is staff-department
                   with duplicates
               file status is staff-status.
           select departments assign to "departments.dat"
               organization is indexed access mode is random
               record key is department-code
               file status is department-status.
           select wages assign to "wages.dat"
               organization is indexed access mode is dynamic
               record key is wage-key
               alternate record key is wage-department
                   with duplicates
               file status is wage-status.
           select sorting assign to "sorting".
           select sorted-wages assign to "sorted.txt"
               organization is line sequential.
           select hours assign to keyboard
               organization is line sequential.
       data division.
       file section.
       fd  staff.
       01  staff-record.
           05 staff-number         pic 9(5).
           05 staff-name           pic x(12).
           05 staff-department     pic x(3).
           05 staff-rate           pic 9(4)v99.
           05 staff-balance        pic s9(5)v99 comp-3.
       fd  departments.
       01  department-record.
           05 department-code      pic x(3).
           05 department-title     pic x(16).
       fd  wages.
       01  wage-record.
           05 wage-key.
              10 wage-month        pic 9(6).
              10 wage-number       pic 9(5).
           05 wage-department      pic x(3).
           05 wage-hours           pic 9(3)v9.
           05 wage-pay             pic 9(6)v99.
       sd  sorting.
       01  sorting-record.
           05 filler               pic x(6).
           05 sorting-number       pic 9(5).
           05 sorting-department   pic x(3).
           05 filler               pic x(4).
           05 sorting-pay          pic 9(6)v99.
       fd  sorted-wages.
       01  sorted-record           pic x(26).
       fd  hours.
       01  hours-line.
           05 hours-number         pic 9(5).
           05 filler               pic x.
           05 hours-worked         pic 9(3)v9.
       working-storage section.
       01  staff-status            pic xx.
       01  department-status       pic xx.
       01  wage-status             pic xx.
       01  this-month              pic 9(6) value 202611.
       01  more-lines              pic x value "y".
       01  total                   pic 9(8)v99 value 0.
       01  shown-pay               pic zzz,zz9.99.
       01  shown-hours             pic zz9.9.
       procedure division.
       main-line.
           perform make-files
           perform read-hours
           perform print-by-pay
           perform print-by-name
           perform print-department
           stop run.

       make-files.
           open output staff departments
           move "ADM" to department-code
           move "Administration" to department-title
           write department-record
           move "STO" to department-code
           move "Stores" to department-title
           write department-record
           move 0 to staff-balance
           move 00017 to staff-number
           move "Lindqvist" to staff-name
           move "STO" to staff-department
           move 21.50 to staff-rate
           perform hire
           move 00104 to staff-number
           move "Okafor" to staff-name
           move "ADM" to staff-department
           move 30.25 to staff-rate
           perform hire
           move 00250 to staff-number
           move "Adeyemi" to staff-name
           move "STO" to staff-department
           move 24.00 to staff-rate
           perform hire
           perform hire
           close staff departments.

       hire.
           write staff-record
               invalid key display "hired already: " staff-number
                   " (" staff-status ")"
               not invalid key display "hired: " staff-number
                   " (" staff-status ")"
           end-write.

       read-hours.
           open input hours i-o staff output wages
           read hours at end move "n" to more-lines end-read
           perform until more-lines = "n"
               perform pay-one
               read hours at end move "n" to more-lines end-read
           end-perform
           close hours staff wages.

       pay-one.
           move hours-number to staff-number
           read staff
               invalid key display "not staff: " hours-number
                   " (" staff-status ")"
               not invalid key perform pay-staff
           end-read.

       pay-staff.
           move this-month to wage-month
           move staff-number to wage-number
           move staff-department to wage-department
           move hours-worked to wage-hours
           multiply hours-worked by staff-rate giving wage-pay rounded
           write wage-record
               invalid key display "paid already: " wage-number
                   " (" wage-status ")"
               not invalid key
                   add wage-pay to staff-balance
                   rewrite staff-record
                   add wage-pay to total
           end-write.

       print-by-pay.
           sort sorting
               on ascending key sorting-department
               on descending key sorting-pay
               using wages giving sorted-wages
           display "by department, the highest first"
           open input sorted-wages departments staff
           move "y" to more-lines
           read sorted-wages at end move "n" to more-lines end-read
           perform until more-lines = "n"
               move sorted-record to wage-record
               perform print-wage
               read sorted-wages at end move "n" to more-lines
               end-read
           end-perform
           close sorted-wages departments staff
           move total to shown-pay
           display "in all" shown-pay.

       print-wage.
           move wage-number to staff-number
           read staff end-read
           move wage-department to department-code
           read departments end-read
           move wage-pay to shown-pay
           move wage-hours to shown-hours
           display department-title staff-name shown-hours shown-pay.

       print-by-name.
           display "by name"
           open input staff
           move low-values to staff-name
           start staff key is greater than staff-name end-start
           perform until staff-status not = "00" and "02"
               read staff next record
                   at end continue
                   not at end
                       move staff-balance to shown-pay
                       display staff-number " " staff-name shown-pay
               end-read
           end-perform
           display "ended by " staff-status
           close staff.

       print-department.
           display "stores, by the alternate key"
           open input wages
           move "STO" to wage-department
           start wages key is equal to wage-department
               invalid key display "none"
           end-start
           perform until wage-status not = "00" and "02"
               read wages next record end-read
               if wage-status = "00" or "02"
                   if wage-department = "STO"
                       display wage-number " " wage-status
                   else
                       move "10" to wage-status
                   end-if
               end-if
           end-perform
           close wages.
