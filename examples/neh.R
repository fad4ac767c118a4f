# NEH's order of three jobs on two machines, in R by the functions of pfs_r.c.
dyn.load("pfs_r.so")
neh <- function(times) .Call("pfs_r_neh", times)
makespan <- function(times, order) .Call("pfs_r_makespan", times, order)

times <- matrix(c(3L, 2L, 2L, 5L, 4L, 1L), nrow = 2) # a row for each machine, a column for each job
order <- neh(times)
cat("order ", paste(order, collapse = " "), ", makespan ", makespan(times, order), "\n", sep = "")
cat(tryCatch(makespan(times, c(1L, 1L)), error = conditionMessage), "\n", sep = "")
