trail (tray, nil).
