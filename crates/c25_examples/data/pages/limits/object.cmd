gain.obj
