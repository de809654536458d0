SECTIONS { high : > 20h  edge : > 7FFFh }
