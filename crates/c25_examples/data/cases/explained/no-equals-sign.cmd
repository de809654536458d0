MEMORY {
  PAGE 0 : ROM : origin = 0, length 1000h
}
