xrepair certificate 1
rounds 4 conflicts 1000 moments 1 nets 7
e 0 3 1
end 1
