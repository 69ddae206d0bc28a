"""Cameras beside the station: loop_camera and loop_setup.

words     the file NAME.camera
film      a camera of either kind, from its file to the text
text      YUV4MPEG2 with the camera's times and numbers
clock     the camera's clock, tied to the system's
changes   what may be changed while a camera films
counts    what was incomplete, resent and lost, told once a second at most
colours   Bayer, RGB and other planes made into those of the store, by ffmpeg
genicam   cameras by Aravis
samples   pixel formats of GenICam, packed ones taken apart
v4l2      cameras of Linux, by the kernel's own calls
videodev  these calls, and their structures
planes    pixel formats of V4L2 made into planes; jpeg takes JPEG apart
controls  exposure, gain and all others of a V4L2 device, by name
network   network cameras and films, by ffmpeg
needed    what only some cameras need; faults, what may be wrong with one
setup     what loop_setup does, with ask, disk, found, pictures, services and written
"""
