! That the compiler's types are those for which the library is made: it doesn't compile elsewhere. A LOGICAL that is .TRUE. is 1.
module kombazily_kinds
  implicit none
  integer, parameter :: integers = 1 / merge(1, 0, storage_size(1) == 32 .and. storage_size(.true.) == 32)
  integer, parameter :: reals = 1 / merge(1, 0, storage_size(1.0) == 32 .and. storage_size(1d0) == 64)
  integer, parameter :: truth = 1 / merge(1, 0, transfer(.true., 0) == 1 .and. transfer(.false., 0) == 0)
end module
