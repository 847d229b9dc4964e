# The C functions build into their two static libraries: start and the eleven calls, and what can be told of a frame alone.
exec tools/staticlib.sh driver_c frame_c
