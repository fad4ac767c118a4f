# NEH's order of three jobs on two machines, in Julia over libpfs. A column of the times has those of a job.
const PFS = "libpfs.so.1"

function neh(times::Vector{UInt32}, jobs, machines)
    instance = Ref{Ptr{Cvoid}}(C_NULL)
    order, makespan, cells = zeros(UInt32, jobs), Ref{UInt64}(0), Ref{UInt64}(0)
    number = @ccall PFS.pfs_prepare(times::Ptr{UInt32}, length(times)::Csize_t, jobs::Csize_t, machines::Csize_t,
                                    instance::Ref{Ptr{Cvoid}})::Cint
    if number == 0
        number = @ccall PFS.pfs_neh(instance::Ref{Ptr{Cvoid}}, order::Ptr{UInt32}, length(order)::Csize_t,
                                    makespan::Ref{UInt64}, cells::Ref{UInt64})::Cint
    end
    @ccall PFS.pfs_release(instance::Ref{Ptr{Cvoid}})::Cvoid
    number == 0 || error(unsafe_string(@ccall PFS.pfs_message(number::Cint)::Cstring))
    return Int.(order), Int(makespan[])
end

for times in (UInt32[3 2 4; 2 5 1], UInt32[3 2; 2 5])
    try
        order, makespan = neh(vec(times), 3, 2)
        println("order ", order, ", makespan ", makespan)
    catch fault
        println(fault.msg)
    end
end
