% follow.m: MATLAB reads frames beside the program that records them, by lapyrei.h alone. No mex is
% compiled: MATLAB's loadlibrary takes the header as it is (it needs a compiler of C, as MinGW or gcc).
%
%     follow('left.loop', 100)
function follow(path, count)
    if ~libisloaded('lapyrei')
        loadlibrary('liblapyrei.so.1', '/usr/include/lapyrei.h', 'alias', 'lapyrei');
    end
    none = intmax('uint64');
    store = libpointer('uint64Ptr', 0);
    want(calllib('lapyrei', 'lapyrei_open_read', path, store));
    closes = onCleanup(@() calllib('lapyrei', 'lapyrei_close', store.Value));
    shape = libstruct('lapyrei_shape', struct('width', 0));
    size_ = libpointer('ulongPtr', 0);
    want(calllib('lapyrei', 'lapyrei_shape_of', store.Value, shape, size_));
    frame = libpointer('uint8Ptr', zeros(1, size_.Value, 'uint8'));
    head = libstruct('lapyrei_head', struct('number', 0));
    newest = libpointer('uint64Ptr', none);
    for k = 1:count
        want(calllib('lapyrei', 'lapyrei_wait', store.Value, newest.Value, 10000, newest));
        refusal = calllib('lapyrei', 'lapyrei_read', store.Value, newest.Value, head, frame, size_.Value);
        if refusal == 109, continue, end  % LAPYREI_GONE: a whole ring has gone by
        want(refusal);
        pixels = double(shape.width) * double(shape.height);
        picture = reshape(frame.Value(1:pixels), shape.width, shape.height)';
        fprintf('frame %d at %d us: %.2f\n', newest.Value, head.timestamp, mean(picture(:)));
    end
end

function want(refusal)
    if refusal ~= 0
        error('lapyrei:refused', '%s: %s', calllib('lapyrei', 'lapyrei_name', refusal), ...
            calllib('lapyrei', 'lapyrei_text', refusal));
    end
end
